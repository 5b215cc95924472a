//! The product's judges, written anew: listed texts, a gauge in metres, either.

#[derive(Clone, Copy, Debug, PartialEq)]
pub enum Judge {
    Texts,
    Gauge,
    Either,
}

impl Judge {
    pub const ALL: [Self; 3] = [Self::Texts, Self::Gauge, Self::Either];

    pub fn name(self) -> &'static str {
        match self {
            Self::Texts => "texts",
            Self::Gauge => "gauge",
            Self::Either => "either",
        }
    }

    pub fn named(name: &str) -> Option<Self> {
        Self::ALL.into_iter().find(|judge| judge.name() == name)
    }
}

/// What an image says of a pattern: its texts, and a range in centimetres.
#[derive(Clone, Debug, Default, PartialEq)]
pub struct Pattern {
    pub texts: Option<Vec<String>>,
    pub gauge: Option<(u32, u32)>,
}

/// A pattern as one judge sees it.
#[derive(Clone, Debug, PartialEq)]
pub struct Rule {
    pub judge: Judge,
    pub pattern: Pattern,
}

impl Rule {
    pub fn accepts(&self, text: &str) -> bool {
        match self.judge {
            Judge::Texts => self.is_listed(text),
            Judge::Gauge => self.is_on_gauge(text),
            Judge::Either => self.is_listed(text) || self.is_on_gauge(text),
        }
    }

    fn is_listed(&self, text: &str) -> bool {
        let texts = self.pattern.texts.as_deref().unwrap_or_default();
        texts.iter().any(|listed| listed == text)
    }

    fn is_on_gauge(&self, text: &str) -> bool {
        let Some((low, high)) = self.pattern.gauge else {
            return false;
        };
        centimetres(text).is_some_and(|n| low <= n && n <= high)
    }
}

/// A reading in metres, rounded to centimetres, a half upwards.
fn centimetres(text: &str) -> Option<u32> {
    let (metres, behind) = match text.split_once('.') {
        Some((metres, behind)) => (metres, behind),
        None => (text, "0"),
    };
    let is_whole = digits(metres, 4) && (metres == "0" || !metres.starts_with('0'));
    if !is_whole || !digits(behind, 3) {
        return None;
    }
    let millimetres = format!("{behind:0<3}").parse::<u32>().ok()?;
    let all = metres.parse::<u32>().ok()? * 1000 + millimetres;
    Some((all + 5) / 10)
}

fn digits(text: &str, most: usize) -> bool {
    (1..=most).contains(&text.len()) && text.bytes().all(|b| b.is_ascii_digit())
}

#[cfg(test)]
mod tests {
    use super::*;

    #[test]
    fn readings() {
        assert_eq!(centimetres("3.454"), Some(345));
        assert_eq!(centimetres("3.455"), Some(346));
        assert_eq!(centimetres("0"), Some(0));
        assert_eq!(centimetres("0.5"), Some(50));
        assert_eq!(centimetres("9999.999"), Some(1_000_000));
        for text in ["00", "01", "1.", ".5", "1.2345", "", "12345", "-1", "1.5.", "+1"] {
            assert_eq!(centimetres(text), None, "{text}");
        }
    }
}
