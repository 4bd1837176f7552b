// SPDX-License-Identifier: Apache-2.0
//! The header of a file of footers: what its arrays are.
use crate::column::{DType, Kind};
use crate::json::Json;
use crate::logical::Logical;
use crate::stat::Stat;

/// What a file's arrays are: the rows of each zone, and then three arrays for each statistic, in order.
pub(crate) struct Header {
    pub(crate) note: String,
    pub(crate) zones: usize,
    pub(crate) columns: Vec<ColumnHeader>,
    pub(crate) statistics: Vec<StatHeader>,
}

pub(crate) struct ColumnHeader {
    pub(crate) name: String,
    pub(crate) dtype: DType,
    pub(crate) logical: Option<Logical>,
}

pub(crate) struct StatHeader {
    pub(crate) column: String,
    pub(crate) stat: Stat,
    /// How many bytes the arrays have: how it is known, its values, and where texts and bytes end.
    pub(crate) bytes: [usize; 3],
}

type Read<T> = Result<T, String>;

impl Header {
    pub(crate) fn to_json(&self) -> String {
        let object = Json::Object(vec![
            ("note".to_owned(), Json::Text(self.note.clone())),
            ("zones".to_owned(), Json::Count(self.zones as u64)),
            ("columns".to_owned(), Json::List(self.columns.iter().map(ColumnHeader::json).collect())),
            ("statistics".to_owned(), Json::List(self.statistics.iter().map(StatHeader::json).collect())),
        ]);
        let mut text = String::new();
        object.write(&mut text);
        text
    }

    // Reads a header. `Err` says what is wrong.
    pub(crate) fn of_json(text: &str) -> Read<Header> {
        let [note, zones, columns, statistics] =
            members(Json::read(text)?, ["note", "zones", "columns", "statistics"])?;
        Ok(Header {
            note: text_of(note)?,
            zones: count_of(&zones)?,
            columns: list_of(columns)?.into_iter().map(ColumnHeader::of).collect::<Read<_>>()?,
            statistics: list_of(statistics)?.into_iter().map(StatHeader::of).collect::<Read<_>>()?,
        })
    }
}

impl ColumnHeader {
    fn json(&self) -> Json {
        let mut fields = vec![
            ("name".to_owned(), Json::Text(self.name.clone())),
            ("type".to_owned(), Json::Text(self.dtype.kind.to_string().to_uppercase())),
            ("nullable".to_owned(), Json::Bool(self.dtype.nullable)),
        ];
        fields.extend(self.logical.iter().map(|it| ("logical".to_owned(), Json::Text(it.to_string()))));
        Json::Object(fields)
    }

    fn of(json: Json) -> Read<ColumnHeader> {
        let has_logical = matches!(&json, Json::Object(fields) if fields.iter().any(|(name, _)| name == "logical"));
        let (name, kind, nullable, logical) = if has_logical {
            let [name, kind, nullable, logical] = members(json, ["name", "type", "nullable", "logical"])?;
            (name, kind, nullable, Some(logical))
        } else {
            let [name, kind, nullable] = members(json, ["name", "type", "nullable"])?;
            (name, kind, nullable, None)
        };
        let word = text_of(kind)?;
        let kind = Kind::EVERY.into_iter().find(|kind| kind.to_string().to_uppercase() == word);
        let kind = kind.ok_or_else(|| format!("there is no type {word}"))?;
        let logical = logical.map(|it| text_of(it)?.parse::<Logical>().map_err(|none| none.to_string())).transpose()?;
        if let Some(it) = logical.as_ref().filter(|it| it.kind() != kind) {
            return Err(format!("{it} isn't mapped onto {word}"));
        }
        Ok(ColumnHeader { name: text_of(name)?, dtype: DType { kind, nullable: truth_of(&nullable)? }, logical })
    }
}

impl StatHeader {
    fn json(&self) -> Json {
        let bytes = self.bytes.map(|count| Json::Count(count as u64));
        Json::Object(vec![
            ("column".to_owned(), Json::Text(self.column.clone())),
            ("stat".to_owned(), Json::Text(self.stat.to_string().to_uppercase())),
            ("bytes".to_owned(), Json::List(bytes.to_vec())),
        ])
    }

    fn of(json: Json) -> Read<StatHeader> {
        let [column, stat, bytes] = members(json, ["column", "stat", "bytes"])?;
        let word = text_of(stat)?;
        let stat = Stat::EVERY.into_iter().find(|stat| stat.to_string().to_uppercase() == word);
        let counts: Vec<usize> = list_of(bytes)?.iter().map(count_of).collect::<Read<_>>()?;
        Ok(StatHeader {
            column: text_of(column)?,
            stat: stat.ok_or_else(|| format!("there is no statistic {word}"))?,
            bytes: counts.try_into().map_err(|_| "a statistic has three arrays".to_owned())?,
        })
    }
}

// The members of an object by these names, of which each stands in it, and no other.
fn members<const N: usize>(json: Json, names: [&str; N]) -> Read<[Json; N]> {
    let Json::Object(mut found) = json else { return Err("an object is expected".to_owned()) };
    let mut taken = Vec::with_capacity(N);
    for name in names {
        let place = found.iter().position(|(it, _)| it == name).ok_or_else(|| format!("{name} is missing"))?;
        taken.push(found.swap_remove(place).1);
    }
    match found.first() {
        Some((name, _)) => Err(format!("{name} isn't known")),
        None => taken.try_into().map_err(|_| "members are missing".to_owned()),
    }
}

fn text_of(json: Json) -> Read<String> {
    if let Json::Text(text) = json {
        return Ok(text);
    }
    Err("a text is expected".to_owned())
}

fn count_of(json: &Json) -> Read<usize> {
    if let Json::Count(count) = json {
        return usize::try_from(*count).map_err(|_| "a count is too large".to_owned());
    }
    Err("a count is expected".to_owned())
}

fn truth_of(json: &Json) -> Read<bool> {
    if let Json::Bool(truth) = json {
        return Ok(*truth);
    }
    Err("a truth is expected".to_owned())
}

fn list_of(json: Json) -> Read<Vec<Json>> {
    if let Json::List(items) = json {
        return Ok(items);
    }
    Err("a list is expected".to_owned())
}
