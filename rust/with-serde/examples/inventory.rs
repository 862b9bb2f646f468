//! Keeps an inventory: reads its parts from JSON, writes them as BSON, reads them back, borrowed, and prints them as JSON and as Extended
//! JSON. Written for the crate `bson`: only its lines `use` name another one.

use bsonraw::oid::ObjectId;
use bsonraw::{doc, from_slice, to_bson, to_vec, Bson, DateTime, Document, RawDocument};
use serde::{Deserialize, Serialize};

#[derive(Debug, Deserialize, PartialEq, Serialize)]
struct Part {
    #[serde(rename = "_id")]
    id: ObjectId,
    name: String,
    state: State,
    #[serde(flatten)]
    stock: Stock,
    #[serde(default, skip_serializing_if = "Vec::is_empty")]
    tags: Vec<String>,
}

#[derive(Debug, Deserialize, PartialEq, Serialize)]
#[serde(rename_all = "lowercase")]
enum State {
    New,
    Sold { at: DateTime },
}

#[derive(Debug, Deserialize, PartialEq, Serialize)]
struct Stock {
    count: u32,
    price: f64,
}

/// What is looked at of a part.
#[derive(Debug, Deserialize)]
struct Label<'a> {
    name: &'a str,
    #[serde(borrow)]
    state: Option<&'a RawDocument>,
}

const PARTS: &str = r#"[
    { "_id": "0102030405060708090a0b0c", "name": "nut", "state": "new", "count": 7, "price": 0.25, "tags": ["m4"] },
    { "_id": { "$oid": "0102030405060708090a0b0d" }, "name": "bolt",
      "state": { "sold": { "at": { "$date": "2012-12-24T12:15:30.501Z" } } }, "count": 1, "price": 1 }
]"#;

fn main() -> Result<(), Box<dyn std::error::Error>> {
    let parts: Vec<Part> = serde_json::from_str(PARTS)?;
    for part in &parts {
        let bytes = to_vec(part)?;
        assert_eq!(from_slice::<Part>(&bytes)?, *part);

        let raw = RawDocument::from_bytes(&bytes)?;
        println!(
            "{} has {} bytes, and {} at {}",
            raw.get_object_id("_id")?,
            bytes.len(),
            raw.get_i64("count")?,
            raw.get_f64("price")?
        );
        match from_slice::<Label>(&bytes) {
            Ok(label) => {
                println!("{}: {:?}", label.name, label.state.and_then(|it| it.get_document("sold").ok()).is_some())
            }
            Err(error) => println!("{error}"),
        }
        println!("{}", serde_json::to_string(&from_slice::<Document>(&bytes)?)?);
    }

    let all =
        doc! { "parts": parts.iter().map(to_bson).collect::<Result<Vec<Bson>, _>>()?, "count": parts.len() as i64 };
    let read: serde_json::Value = from_slice(&to_vec(&all)?)?;
    println!("{}", read["parts"][1]["state"]);

    let error = from_slice::<Vec<Part>>(&to_vec(&all)?).unwrap_err();
    println!("{error}");
    Ok(())
}
