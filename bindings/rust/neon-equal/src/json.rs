//! JSON, as much of it as is written here.

/// A value that is written already.
#[derive(Debug, Clone)]
pub struct Json(String);

impl Json {
    pub fn text(text: &str) -> Self {
        let mut out = String::from("\"");
        for c in text.chars() {
            match c {
                '"' => out += "\\\"",
                '\\' => out += "\\\\",
                '\n' => out += "\\n",
                c if (c as u32) < 0x20 || c as u32 == 0x7f => out += &format!("\\u{:04x}", c as u32),
                c => out.push(c),
            }
        }
        Self(out + "\"")
    }

    pub fn number(number: impl Into<u64>) -> Self {
        Self(number.into().to_string())
    }

    /// Seconds to the thousandth.
    pub fn seconds(seconds: f64) -> Self {
        Self(format!("{seconds:.3}"))
    }

    pub fn truth(truth: bool) -> Self {
        Self(truth.to_string())
    }

    pub fn list(items: impl IntoIterator<Item = Self>) -> Self {
        let items: Vec<String> = items.into_iter().map(|item| item.0).collect();
        Self(format!("[{}]", items.join(",")))
    }

    pub fn object<N: AsRef<str>>(fields: impl IntoIterator<Item = (N, Self)>) -> Self {
        let fields: Vec<String> = fields.into_iter().map(|(name, value)| format!("{}:{}", Self::text(name.as_ref()).0, value.0)).collect();
        Self(format!("{{{}}}", fields.join(",")))
    }
}

impl std::fmt::Display for Json {
    fn fmt(&self, f: &mut std::fmt::Formatter<'_>) -> std::fmt::Result {
        f.write_str(&self.0)
    }
}

#[cfg(test)]
mod tests {
    use super::*;

    #[test]
    fn values() {
        let value = Json::object([("a\"\\\n\u{1}", Json::list([Json::text("ü"), Json::number(5u64), Json::truth(true), Json::seconds(0.25)]))]);
        assert_eq!(value.to_string(), "{\"a\\\"\\\\\\n\\u0001\":[\"ü\",5,true,0.250]}");
    }
}
