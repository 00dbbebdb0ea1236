//! The examples of document 01, its refusal table, its words to prove, the mistakes it names, the
//! settled readings, and the words of request 4 of document 02.

use govorun_tests::agreed::{check, join, lent, names, print, tape};
use govorun_tests::codes::NAMES;
use govorun_tests::trial::Operation::{Join, Name, Transcribe};
use govorun_tests::{cp1251, spell, Answer, Counts, Refusal, EDITIONS};

fn sounds(text: &str) -> String {
    print(&cp1251(text));
    spell(&tape(&cp1251(text), usize::MAX).expect("an accepted message"))
}

fn named(text: &str) -> Vec<u8> {
    names(&cp1251(text), usize::MAX).expect("an accepted message")
}

fn refused(text: &str) -> (u8, usize) {
    print(&cp1251(text));
    let refusal = check(&cp1251(text)).expect_err("a refused message");
    (refusal.number, refusal.place)
}

fn joined(text: &str, cuts: &[usize]) -> (String, usize) {
    let joined = join(&cp1251(text), cuts, usize::MAX).expect("good cuts");
    (spell(&joined.tape), joined.live)
}

#[test]
fn refusal_table() {
    assert_eq!(refused(""), (1, 0));
    assert_eq!(refused(&"а".repeat(4097)), (2, 0));
    assert_eq!(refused("а7"), (3, 1));
    assert_eq!(refused("а#"), (4, 1));
    assert_eq!(refused("б*"), (5, 1));
    assert_eq!(refused("ьа"), (6, 0));
    assert_eq!(refused("бьъ"), (7, 2));
    assert_eq!(refused("бък"), (8, 2));
    assert_eq!(refused("а*ья"), (9, 3));
    assert_eq!(refused(&"а".repeat(65)), (10, 64));
    assert_eq!(tape(&cp1251("а"), 0), Err(Refusal::new(11, 1)));
    assert_eq!(names(&cp1251("а"), 0), Err(Refusal::new(11, 1)));
    assert_eq!(join(&cp1251("а"), &[], 0), Err(Refusal::new(11, 1)));
    assert_eq!(join(&cp1251("а б"), &[0], 9), Err(Refusal::new(12, 0)));
}

#[test]
fn order_of_refusals() {
    // The smallest place first, whatever the numbers.
    assert_eq!(refused("ьа7"), (6, 0));
    assert_eq!(refused("а# 7"), (4, 2));
    // At one place the smallest number: the 65th letter may be wrong in another way too.
    let long = "б".repeat(63);
    assert_eq!(refused(&format!("{long}ьь")), (7, 64));
    assert_eq!(refused(&format!("{long}ъб")), (8, 64));
    assert_eq!(refused(&format!("{}аьа", "б".repeat(62))), (9, 64));
    assert_eq!(refused(&format!("{long}аб")), (10, 64));
    // Number 2 comes before everything that the bytes could tell.
    assert_eq!(refused(&"#".repeat(4097)), (2, 0));
    // The message before the cuts, the cuts before the output.
    assert_eq!(join(&cp1251("а7"), &[0], 0), Err(Refusal::new(3, 1)));
    assert_eq!(join(&cp1251("а б"), &[1, 1], 0), Err(Refusal::new(12, 1)));
    assert_eq!(join(&cp1251("а б"), &[1, 3], 9), Err(Refusal::new(12, 1)));
    assert_eq!(join(&cp1251("а б"), &[1], 2), Err(Refusal::new(11, 3)));
}

#[test]
fn refusals_near_the_edge() {
    assert_eq!(refused(" "), (4, 0));
    assert_eq!(refused("#а"), (4, 0));
    assert_eq!(refused("а  б"), (4, 2));
    assert_eq!(refused("*"), (5, 0));
    assert_eq!(refused("а**"), (5, 2));
    assert_eq!(refused("а *б"), (5, 2));
    assert_eq!(refused("а ъ"), (6, 2));
    assert_eq!(refused("а\n"), (3, 1));
    assert!(check(&cp1251(&"а".repeat(64))).is_ok());
    assert!(check(&cp1251(&"а*".repeat(64))).is_ok());
    assert_eq!(refused(&"а*".repeat(65)), (10, 128));
    let longest = format!("{}а", "а ".repeat(2047));
    assert_eq!(cp1251(&longest).len(), 4095);
    assert!(check(&cp1251(&format!("{longest}а"))).is_ok());
    assert_eq!(refused(&format!("{longest} ")), (4, 4095));
}

/// Each word as listed, in small letters and in capitals.
fn sounds_in_either_case(list: &[(&str, &str)]) {
    for (text, expected) in list {
        assert_eq!(sounds(text), *expected, "{text}");
        let capitals = text.to_uppercase();
        assert_eq!(sounds(&capitals), *expected, "{capitals}");
    }
}

#[test]
fn words_to_prove() {
    sounds_in_either_case(&[
        ("вода*", "В А1 Д А*"),
        ("ду*б го*л", "Д У* Б | Г О* Л"),
        ("ду*б#го*л", "Д У* П # Г О* Л"),
        ("са*д и*вы", "С А* Т | Ы* В Ы1"),
        ("са*д к до*му", "С А* Д | Г | Д О* М У1"),
        ("подъе*зд", "П А1 Д J Э* С Т"),
        ("по*здно", "П О* З Н А2"),
        ("сте*нды", "С' Т' Э* Н Д Ы1"),
        ("про*сьба", "П Р О* З' Б А2"),
        ("жена*", "Ж Ы1 Н А*"),
    ]);
}

/// Request 4: о after ь has a glide at every level.
#[test]
fn o_after_soft_sign() {
    sounds_in_either_case(&[
        ("бульо*н", "Б У1 Л' J О* Н"),
        ("каньо*н", "К А1 Н' J О* Н"),
        ("медальо*н", "М' Э2 Д А1 Л' J О* Н"),
        // Unmarked, level 1, and level 2 before the mark and after it.
        ("бульон", "Б У1 Л' J А1 Н"),
        ("гильоти*на", "Г' И1 Л' J А1 Т' И* Н А2"),
        ("гильотини*ровать", "Г' И1 Л' J А2 Т' И1 Н' И* Р А2 В А2 Т'"),
        ("бо*льо", "Б О* Л' J А2"),
        // Noise letters before the glide are voiced as written; ж ш ч щ and й keep their sounds.
        ("бьо*б пьо*п", "Б' J О* П | П' J О* П"),
        ("шьо*", "Ш J О*"),
        ("ружьо*", "Р У1 Ж J О*"),
        ("щьо чьо*", "Щ J А1 | Ч J О*"),
        ("йьо*", "J J О*"),
        // Such an о is after ь and not after ч.
        ("ба*чо ба*чьо", "Б А* Ч Э2 | Б А* Ч J А2"),
    ]);
    assert_eq!(sounds("буЛЬо*н"), "Б У1 Л' J О* Н");
    assert_eq!(sounds("бульО*н"), "Б У1 Л' J О* Н");
    let counts = check(&cp1251("бульо*н"));
    assert_eq!(counts, Ok(Counts { codes: 6, names: 3 }));
    assert_eq!(named("бульо*н"), [3, 1, 7]);
    assert_eq!(named("гильотини*ровать"), [5, 5, 3, 1, 5, 5, 7]);
}

/// Request 4 gives a glide to nothing else.
#[test]
fn plain_vowels_without_a_glide() {
    sounds_in_either_case(&[
        // о after ъ, after a consonant, which stays hard, after a vowel and at the start.
        ("подъо*м", "П А1 Д О* М"),
        ("объо отъопи*ть", "А1 Б А1 | А1 Т А1 П' И* Т'"),
        ("по*дъом", "П О* Д А2 М"),
        ("подъопери*ть", "П А2 Д А2 П' Э1 Р' И* Т'"),
        ("ло*н лон", "Л О* Н | Л А1 Н"),
        ("райо*н", "Р А1 J О* Н"),
        ("као* о*н он", "К А1 О* | О* Н | А1 Н"),
        // The other plain vowels after ь, at every level.
        ("кольа* кольа", "К А1 Л' А* | К А1 Л' А1"),
        ("ко*льа ко*льэ", "К О* Л' А2 | К О* Л' Э2"),
        ("кольу* кольу", "К А1 Л' У* | К А1 Л' У1"),
        ("кольы* кольы", "К А1 Л' Ы* | К А1 Л' Ы1"),
        ("кольэ* кольэ", "К А1 Л' Э* | К А1 Л' Э1"),
    ]);
    assert_eq!(refused("аьо"), (9, 2));
    assert_eq!(refused("а*ьо*"), (9, 3));
}

#[test]
fn joins_to_prove() {
    let text = "са*д к до*му";
    let whole = "С А* Д | Г | Д О* М У1";
    assert_eq!(joined(text, &[]), (whole.to_string(), 0));
    let at_4 = "С А* Т | Г | Д О* М У1";
    assert_eq!(joined(text, &[4]), (at_4.to_string(), 1));
    let at_4_and_6 = "С А* Т | К | Д О* М У1";
    assert_eq!(joined(text, &[4, 6]), (at_4_and_6.to_string(), 2));
    assert_eq!(joined(text, &[6]), (at_4_and_6.to_string(), 1));
}

#[test]
fn program_example() {
    let print = |text: &str| print(&cp1251(text));
    assert_eq!(print("ду*б ра*д"), "24 6 39 0 41 1 45\n");
    assert_eq!(print("ду*б#ра*д"), "24 6 39 63 41 1 45\n");
    assert_eq!(print("ду*б\n"), "refused 3 at 4\n");
    assert_eq!(print(""), "refused 1 at 0\n");
    assert_eq!(print(&"а".repeat(5000)), "refused 2 at 0\n");
}

#[test]
fn mistakes_near_at_hand() {
    assert_eq!(sounds("свой"), "С В А1 J");
    assert_eq!(sounds("сво*й"), "С В О* J");
    assert_eq!(sounds("са*д к до*му"), "С А* Д | Г | Д О* М У1");
    assert_eq!(sounds("подъе*зд"), "П А1 Д J Э* С Т");
    assert_eq!(sounds("са*д#и*вы"), "С А* Т # И* В Ы1");
}

#[test]
fn silent_letters() {
    assert_eq!(sounds("ме*стный"), "М' Э* С Н Ы1 J");
    assert_eq!(sounds("тури*стский"), "Т У1 Р' И* С С К' И1 J");
    assert_eq!(sounds("гига*нтский"), "Г' И1 Г А* Н С К' И1 J");
    assert_eq!(sounds("сердчи*шко"), "С' Э1 Р Ч И* Ш К А2");
    assert_eq!(sounds("се*рдце"), "С' Э* Р Ц А2");
    assert_eq!(sounds("уздцы*"), "У1 С Ц Ы*");
    assert_eq!(sounds("исла*ндцы"), "И1 С Л А* Н Ц Ы1");
    assert_eq!(sounds("исла*ндский"), "И1 С Л А* Н С К' И1 J");
    assert_eq!(sounds("ла*ндштурм"), "Л А* Н Ш Т У1 Р М");
    // Not silent: the cluster lacks a letter or has another between.
    assert_eq!(sounds("ка*стка"), "К А* С Т К А2");
    assert_eq!(sounds("ба*ндша"), "Б А* Н Т Ш А2");
    assert_eq!(sounds("стьна"), "С' Т' Н А1");
}

fn sounds_as_listed(list: &[(&str, &str)]) {
    for (text, expected) in list {
        assert_eq!(sounds(text), *expected, "{text}");
    }
}

#[test]
fn plain_vowels() {
    sounds_as_listed(&[
        // а and о: after ч щ й, initial, elsewhere.
        ("часы*", "Ч Э1 С Ы*"),
        ("часовщи*к", "Ч Э2 С А1 Ф Щ И* К"),
        ("аванга*рд", "А1 В А1 Н Г А* Р Т"),
        ("огоро*д", "А1 Г А1 Р О* Т"),
        ("голова*", "Г А2 Л А1 В А*"),
        ("чо*рочо", "Ч О* Р А2 Ч Э2"),
        ("чо йо щоры*", "Ч А1 | J А1 | Щ А1 Р Ы*"),
        // у and ы have two sounds only.
        ("уу*", "У1 У*"),
        ("мы*ры", "М Ы* Р Ы1"),
        // э at a hard boundary and elsewhere.
        ("до*м эта*п", "Д О* М | Ы1 Т А* П"),
        ("до*м э*ры", "Д О* М | Э* Р Ы1"),
        ("эта*п", "Э1 Т А* П"),
        ("моя* эконо*м", "М А1 J А* | Э2 К А1 Н О* М"),
    ]);
}

#[test]
fn softening_vowels() {
    sounds_as_listed(&[
        // е after ж ш ц and elsewhere, with the glide where the syllable is bare.
        ("желе*зо", "Ж Ы1 Л' Э* З А2"),
        ("железняка*", "Ж А2 Л' Э2 З' Н' Э1 К А*"),
        ("езда*", "J Э1 З Д А*"),
        ("ералаши*", "J Э1 Р А2 Л А1 Ш Ы*"),
        ("вереща*ть", "В' Э2 Р' Э1 Щ А* Т'"),
        // ё, ю, я.
        ("королёв", "К А1 Р А1 Л' О* Ф"),
        ("ёж", "J О* Ш"),
        ("ю*ла юла*", "J У* Л А2 | J У1 Л А*"),
        ("язы*к", "J Э1 З Ы* К"),
        ("языки*", "J Э1 З Ы1 К' И*"),
        ("мая*к", "М А1 J А* К"),
        ("бря*кнется", "Б Р' А* К Н' Э2 Т' С' Э2"),
        // и after ж ш ц, at a hard boundary, after a sign; no glide where it is bare.
        ("жи*ли", "Ж Ы* Л' И1"),
        ("мышь и*х", "М Ы1 Ш | Ы* Х"),
        ("ночь и*х", "Н А1 Ч | И* Х"),
        ("воробьи*", "В А2 Р А1 Б' J И*"),
        ("мои*", "М А1 И*"),
    ]);
}

#[test]
fn voice_and_softness() {
    sounds_as_listed(&[
        ("та*кже", "Т А* Г Ж А2"),
        ("афга*нец", "А1 В Г А* Н' Э2 Ц"),
        ("пло*щадь", "П Л О* Щ Э2 Т'"),
        ("но*чь бы", "Н О* Ч1 | Б Ы1"),
        ("ве*щь бы", "В' Э* Ж' | Б Ы1"),
        ("оте*ц бы", "А1 Т' Э* Ц1 | Б Ы1"),
        ("мо*х бы", "М О* Х1 | Б Ы1"),
        ("ко*нчик", "К О* Н' Ч И1 К"),
        ("ка*нщик", "К А* Н' Щ И1 К"),
        ("ра*нняя", "Р А* Н' Н' Э2 J Э2"),
        ("субби*ть", "С У1 Б' Б' И* Т'"),
        ("вфе", "Ф' Ф' Э1"),
        ("ххе", "Х' Х' Э1"),
        ("лле рре мме", "Л' Л' Э1 | Р' Р' Э1 | М' М' Э1"),
        // Voice passes through a chain of words, but not through В and not over a pause.
        ("к с б до*м", "Г | З | Б | Д О* М"),
        ("к с#б до*м", "К | С # Б | Д О* М"),
        // ф gains voice before set D but passes none on; в loses it before set U and does.
        ("кфба", "К В Б А1"),
        ("квта", "К Ф Т А1"),
        ("звта", "С Ф Т А1"),
        ("зва сва", "З В А1 | С В А1"),
    ]);
}

#[test]
fn syllable_names() {
    assert_eq!(named("вода*"), [3, 1]);
    assert_eq!(named("а*о"), [2, 6]);
    assert_eq!(named("оа*"), [4, 2]);
    assert_eq!(named("ба*боо"), [1, 5, 6]);
    assert_eq!(named("боа"), [3, 4]);
    assert_eq!(named("к до*му#в"), [7, 1, 5, 7]);
    assert_eq!(named("подъе*зд"), [3, 1, 7]);
    assert_eq!(named("го*ло*с"), [1, 1, 7]);
    assert_eq!(named("со*рокова*я"), [1, 5, 3, 1, 6]);
}

#[test]
fn counts_of_the_check() {
    let counts = |text: &str| check(&cp1251(text)).expect("an accepted message");
    assert_eq!(counts("вода*"), Counts { codes: 4, names: 2 });
    assert_eq!(counts("ду*б ра*д"), Counts { codes: 7, names: 4 });
    assert_eq!(counts("яя"), Counts { codes: 4, names: 2 });
}

#[test]
fn settled_readings() {
    // ё without a mark sounds the same but makes no level S.
    assert_eq!(named("королёв"), [3, 3, 3, 7]);
    assert_eq!(named("королё*в"), [5, 3, 1, 7]);
    assert_eq!(sounds("королё*в"), "К А2 Р А1 Л' О* Ф");
    // Several marks in a word.
    assert_eq!(
        sounds("желе*знодоро*жный"),
        "Ж Ы1 Л' Э* З Н А2 Д А1 Р О* Ж Н Ы1 J"
    );
    // A sign after the last vowel is a letter left over.
    assert_eq!(named("аь"), [4, 7]);
    // A word that ends in ъ makes no hard boundary.
    assert_eq!(sounds("са*дъ и*вы"), "С А* Т | И* В Ы1");
    assert_eq!(sounds("ижъ и*вы"), "И1 Ш | И* В Ы1");
    assert_eq!(joined("са*дъ и*вы", &[5]).1, 0);
    // A vowel after ь is not after ж.
    assert_eq!(sounds("ружьи*"), "Р У1 Ж J И*");
    assert_eq!(sounds("ружье"), "Р У1 Ж J Э1");
    // В is in neither set.
    assert_eq!(sounds("са*д в до*м"), "С А* Т | В | Д О* М");
    assert_eq!(sounds("к в до*м"), "К | В | Д О* М");
    assert_eq!(
        joined("к в до*м", &[1, 3]),
        ("К | Ф | Д О* М".to_string(), 1)
    );
    // г is no partner of Х1'; х is.
    assert_eq!(sounds("гхьба"), "Г Х1' Б А1");
    assert_eq!(sounds("ххьба"), "Х1' Х1' Б А1");
}

#[test]
fn live_joints() {
    assert_eq!(joined("ду*бъ го*л", &[5]).1, 1);
    assert_eq!(joined("ду*бь го*л", &[5]).1, 1);
    assert_eq!(joined("ду*б#го*л", &[4]).1, 0);
    assert_eq!(joined("ду*б на*", &[4]).1, 0);
    assert_eq!(joined("са*н го*л", &[4]).1, 0);
    assert_eq!(
        joined("са*д и*вы", &[4]),
        ("С А* Т | И* В Ы1".to_string(), 1)
    );
    assert_eq!(
        joined("са*д эта*п", &[4]),
        ("С А* Т | Э1 Т А* П".to_string(), 1)
    );
    assert_eq!(joined("са*д э*ры", &[4]).1, 0);
    assert_eq!(joined("мо*й и*вы", &[4]).1, 0);
    assert_eq!(joined("мышь и", &[4]), ("М Ы1 Ш | И1".to_string(), 1));
}

#[test]
fn answers_and_lent_output() {
    let answer = |number, place, length, live| Answer {
        number,
        place,
        length,
        live,
    };
    let msg = cp1251("ду*б го*л");
    let taped = [24, 6, 16, 0, 20, 2, 33];
    for edition in EDITIONS {
        assert_eq!(
            lent(Transcribe(edition), &msg, &[9; 8]),
            (answer(0, 0, 7, 0), [&taped[..], &[9]].concat())
        );
        assert_eq!(
            lent(Transcribe(edition), &msg, &[9; 6]),
            (answer(11, 7, 0, 0), vec![9; 6])
        );
        assert_eq!(
            lent(Join(edition, &[4]), &msg, &[9; 7]),
            (answer(0, 0, 7, 1), vec![24, 6, 39, 0, 20, 2, 33])
        );
        assert_eq!(
            lent(Join(edition, &[3]), &msg, &[9; 7]),
            (answer(12, 0, 0, 0), vec![9; 7])
        );
    }
    assert_eq!(
        lent(Name, &msg, &[9; 5]),
        (answer(0, 0, 4, 0), vec![1, 7, 1, 7, 9])
    );
    assert_eq!(lent(Name, b"7", &[]), (answer(3, 0, 0, 0), Vec::new()));
}

#[test]
fn code_list() {
    let code = |name: &str| NAMES.iter().position(|&n| n == name).expect("a name") + 1;
    let numbers = ["А*", "Е", "Б", "J", "К", "Х", "Ц", "Щ"].map(code);
    assert_eq!(numbers, [1, 15, 16, 28, 31, 49, 51, 56]);
    // Softening a sound takes the next code: the list must have it there.
    for letter in "БВГДЗКЛМНПРСТФХ".chars() {
        assert_eq!(code(&format!("{letter}'")), code(&letter.to_string()) + 1);
    }
    assert_eq!(code("Х1'"), code("Х1") + 1);
}
