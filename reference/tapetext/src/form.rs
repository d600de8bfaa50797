//! The forms of a record: which words stand for which record kind and detail,
//! and which fields each carries. A new record kind is one more row here.

/// Length of a record.
pub const RECORD_BYTES: usize = 24;

/// A field's name in the text and its place in the record, low byte first.
#[derive(Clone, Copy, Debug, PartialEq, Eq)]
pub(crate) struct Field {
    pub name: &'static str,
    pub offset: usize,
    pub width: usize,
}

/// A create's detail, which other records have for what they are.
pub(crate) const WINDOW: Field = Field {
    name: "window",
    offset: 1,
    width: 1,
};
pub(crate) const DAY: Field = Field {
    name: "day",
    offset: 2,
    width: 2,
};
pub(crate) const REFERENCE: Field = Field {
    name: "reference",
    offset: 4,
    width: 4,
};
pub(crate) const PREMISE: Field = Field {
    name: "premise",
    offset: 8,
    width: 8,
};
pub(crate) const RETAILER: Field = Field {
    name: "retailer",
    offset: 16,
    width: 8,
};

/// A date change's, in the first half of the retailer's place.
pub(crate) const COUNTER: Field = Field {
    name: "counter",
    offset: 16,
    width: 4,
};

impl Field {
    /// The biggest number that fits the field.
    pub fn most(self) -> u64 {
        u64::MAX >> (64 - 8 * self.width)
    }

    /// The field's number in a record of full length.
    pub fn get(self, record: &[u8]) -> u64 {
        let bytes = &record[self.offset..self.offset + self.width];
        bytes
            .iter()
            .rev()
            .fold(0, |number, &byte| number << 8 | u64::from(byte))
    }

    /// Puts a number that fits into a record of full length.
    pub fn put(self, record: &mut [u8], number: u64) {
        let bytes = number.to_le_bytes();
        record[self.offset..self.offset + self.width].copy_from_slice(&bytes[..self.width]);
    }
}

/// How the fields of a form are written.
#[derive(Clone, Copy, Debug, PartialEq, Eq)]
pub(crate) enum Fields {
    /// One number right after the words, without a name.
    Bare(Field),
    /// Each with its name before it, in any order; the optional ones are 0
    /// where they are left out.
    Named {
        required: &'static [Field],
        optional: &'static [Field],
    },
}

/// One form of a record.
#[derive(Debug, PartialEq, Eq)]
pub(crate) struct Form {
    /// What the documents call it.
    pub name: &'static str,
    pub words: &'static [&'static str],
    pub kind: u8,
    /// None where the detail is one of the fields.
    pub detail: Option<u8>,
    pub fields: Fields,
}

impl Form {
    /// Whether the form is for records with this kind and detail.
    pub fn is_for(&self, kind: u8, detail: u8) -> bool {
        self.kind == kind && self.detail.unwrap_or(detail) == detail
    }
}

const fn form(
    name: &'static str,
    words: &'static [&'static str],
    kind: u8,
    detail: u8,
    required: &'static [Field],
) -> Form {
    Form {
        name,
        words,
        kind,
        detail: Some(detail),
        fields: Fields::Named {
            required,
            optional: &[],
        },
    }
}

const ORDER: &[Field] = &[PREMISE, REFERENCE, DAY, RETAILER];
const DATED: &[Field] = &[PREMISE, REFERENCE, DAY];
const NAMED: &[Field] = &[PREMISE, REFERENCE];

/// All forms, in the order of the record kinds. No two share kind and
/// detail, and no form's words begin another's.
pub(crate) const FORMS: &[Form] = &[
    Form {
        name: "create",
        words: &["create"],
        kind: 1,
        detail: None,
        fields: Fields::Named {
            required: &[PREMISE, DAY, RETAILER],
            optional: &[WINDOW],
        },
    },
    form("retire", &["retire"], 2, 0, &[PREMISE]),
    form("move in", &["move-in"], 3, 1, ORDER),
    form("move out", &["move-out"], 3, 2, ORDER),
    // A standard switch names no day: its requested day is the switch date. A
    // day can still be written, since a tape must be able to show it refused.
    Form {
        name: "standard switch",
        words: &["standard-switch"],
        kind: 3,
        detail: Some(3),
        fields: Fields::Named {
            required: &[PREMISE, REFERENCE, RETAILER],
            optional: &[DAY],
        },
    },
    form(
        "self-selected switch",
        &["self-selected-switch"],
        3,
        4,
        ORDER,
    ),
    form("mass transition drop", &["drop"], 3, 5, ORDER),
    form("scheduled", &["scheduled"], 4, 0, DATED),
    form("permit required", &["permit"], 5, 0, NAMED),
    form("unexecutable", &["unexecutable"], 6, 0, NAMED),
    form("meter read", &["read"], 7, 0, DATED),
    form("cancel", &["cancel"], 8, 0, &[PREMISE, REFERENCE, RETAILER]),
    form("cancel reply, accept", &["reply", "accept"], 9, 1, NAMED),
    form("cancel reply, reject", &["reply", "reject"], 9, 2, NAMED),
    Form {
        name: "day mark",
        words: &["day"],
        kind: 10,
        detail: Some(0),
        fields: Fields::Bare(DAY),
    },
    form(
        "date change",
        &["date-change"],
        11,
        0,
        &[PREMISE, REFERENCE, DAY, COUNTER],
    ),
    form(
        "agreement, establish",
        &["establish"],
        12,
        1,
        &[PREMISE, RETAILER],
    ),
    form(
        "agreement, delete",
        &["delete"],
        12,
        2,
        &[PREMISE, RETAILER],
    ),
];

#[cfg(test)]
mod tests {
    use super::*;

    #[test]
    fn no_two_forms_share_kind_and_detail() {
        for kind in 0..=u8::MAX {
            for detail in 0..=u8::MAX {
                let forms = FORMS.iter().filter(|form| form.is_for(kind, detail));
                assert!(forms.count() <= 1, "{kind} {detail}");
            }
        }
    }

    #[test]
    fn no_forms_words_begin_anothers() {
        for (place, one) in FORMS.iter().enumerate() {
            for (other_place, other) in FORMS.iter().enumerate() {
                assert!(place == other_place || !one.words.starts_with(other.words));
            }
        }
    }

    #[test]
    fn a_field_holds_every_number_up_to_its_most() {
        for field in [WINDOW, DAY, REFERENCE, PREMISE, RETAILER, COUNTER] {
            for number in [0, 1, field.most() / 3, field.most()] {
                let mut record = [0; RECORD_BYTES];
                field.put(&mut record, number);
                assert_eq!(field.get(&record), number);
            }
        }
        assert_eq!(DAY.most(), 65_535);
        assert_eq!(PREMISE.most(), u64::MAX);
        assert_eq!(RETAILER.most(), u64::MAX);
        assert_eq!(COUNTER.most(), 4_294_967_295);
    }
}
