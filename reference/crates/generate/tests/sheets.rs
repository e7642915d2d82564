//! Generated sheets are what their size and damage say.

use answers::Reference;
use decode::number;
use generate::{commands, Damage, Generator, Rng, Role, Size};
use schema::limit;

/// The numbers that the check gives a sheet that meets none of 1 to 4.
const WALKED: [u8; 4] = [number::ACCEPTED, number::MISSING, number::IMPORT, number::COMMENTS_LEFT];

#[test]
fn sizes_are_exact() {
    let mut seen = std::collections::HashSet::new();
    for case in Generator::new(2).cases(40_000).filter(|case| case.damage.is_none()) {
        let all = commands(&case.sheet.record).expect("the record fits the schema");
        let tokens = all.iter().filter(|command| command.role == Role::Token).count();
        let check = Reference::new(&case.sheet).check().value;
        let within = WALKED.contains(&check.number);
        let expected = match case.size {
            Size::Text(length) => (case.sheet.text.len(), length, limit::TEXT, number::TOO_LONG),
            Size::Record(length) => {
                (case.sheet.record.len(), length, limit::RECORD, number::TOO_LONG)
            }
            Size::Tokens(count) => (tokens, count, limit::TOKENS, number::MALFORMED),
            Size::Deep(forms) => (forms, forms, limit::FORMS, number::TOO_DEEP),
            Size::Small | Size::Medium | Size::Wide(_) => {
                assert!(within, "{case}: {}", check.number);
                continue;
            }
        };
        let (is, wanted, limit, refusal) = expected;
        assert_eq!(is, wanted, "{case}");
        assert_eq!(check.number == refusal, is > limit, "{case}");
        assert_eq!(within, is <= limit, "{case}");
        seen.insert(case.size);
    }
    assert_eq!(seen.len(), 12);
}

/// The numbers that a sheet within the limits gets from a damage; empty where any may come.
fn numbers(damage: Damage) -> &'static [u8] {
    match damage {
        Damage::CutBetween
        | Damage::CutInside
        | Damage::CutAll
        | Damage::BytesLeft
        | Damage::FieldDropped
        | Damage::ListAbsent
        | Damage::ItemAbsent
        | Damage::ListCountHuge
        | Damage::ChoiceNumber
        | Damage::WrongFamily
        | Damage::BetweenFamilies
        | Damage::TokenNumber
        | Damage::FirstToken
        | Damage::TokenKind
        | Damage::TokenEmpty
        | Damage::TokenLength
        | Damage::TokenLengthHuge
        | Damage::TokenDropped
        | Damage::TokenRepeated
        | Damage::TokenInTree
        | Damage::TextShorter
        | Damage::TextLonger => &[number::MALFORMED],
        Damage::TextByte => &[number::NOT_UTF8],
        Damage::FieldAbsent | Damage::TokenKindChanged => &WALKED,
        _ => &[],
    }
}

#[test]
fn damage_gets_its_numbers() {
    let mut count = 0;
    for case in Generator::new(3).cases(40_000) {
        let (Some(damage), Size::Small) = (case.damage, case.size) else { continue };
        let number = Reference::new(&case.sheet).check().value.number;
        let expected = numbers(damage);
        assert!(expected.is_empty() || expected.contains(&number), "{case}: {number}");
        count += 1;
    }
    assert!(count > 8_000, "{count}");
}

#[test]
fn damage_changes_the_sheet() {
    let mut rng = Rng::new(4, 0);
    let case = Generator::new(4).cases(1_000).find(|case| case.size == Size::Medium);
    let sheet = case.expect("a medium sheet").sheet;
    for &damage in Damage::ALL {
        for _ in 0..20 {
            if let Some(damaged) = damage.apply(&sheet, &mut rng) {
                assert_ne!(damaged, sheet, "{}", damage.name());
            }
        }
    }
}

#[test]
fn commands_tile_the_record() {
    for case in Generator::new(5).cases(5_000) {
        let Some(all) = commands(&case.sheet.record) else {
            assert!(Reference::new(&case.sheet).root().is_none(), "{case}");
            continue;
        };
        let mut at = 0;
        for command in &all {
            assert_eq!(command.bytes.start, at, "{case}");
            at = command.bytes.end;
            assert!(command.end >= at, "{case}");
        }
        assert_eq!(at, case.sheet.record.len(), "{case}");
    }
}
