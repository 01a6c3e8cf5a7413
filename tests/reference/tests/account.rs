//! The account of a trace, against lines written by hand.

use reference::account::program;

const FRESH: &str = r#"{"settings":[1,1,0,0,0,0,0,1,0,0,17,19,0,0,22],"receive_queue":[],"transmit_queue":[],"literal_mark":false,"stopped":false,"owed_nl":false,"waiting_special":null,"cts":0,"loss_count":0}"#;

/// The account's line for a card on which only channel 1 may be altered.
fn line(answer: &str, last_named: &str, channel: &str) -> String {
    format!("{{\"answer\":{answer},\"last_named\":{last_named},\"channels\":[{FRESH},{channel},{FRESH},{FRESH}]}}")
}

#[test]
fn a_fresh_card_and_the_card_after_each_line() {
    assert_eq!(program(b""), line("[]", "null", FRESH) + "\n");
    let with_cts = FRESH.replace("\"cts\":0", "\"cts\":1");
    let lines = [
        line("[]", "null", FRESH),
        line("[0,255]", "null", FRESH),
        line("[0]", "null", &with_cts),
        line("[11]", "null", &with_cts),
    ];
    assert_eq!(program(b"08\n050101\n0"), lines.join("\n") + "\n");
}

#[test]
fn each_part_of_a_channel() {
    let settings = "0701040000070100010501012122232425";
    let queued = ["03010A41", "050101", "0401"];
    let arrived = ["01010141", "010100FF", "01010022"];
    // With ten of these, thirteen are there; the next one is lost, and so is
    // the literal-next character behind it.
    let more = ["01010242"; 11];
    let last = ["01010025", "060103", "08"];
    let trace = [&[settings], &queued[..], &arrived, &more, &last].concat();
    let channel = [
        r#"{"settings":[4,0,0,7,1,0,1,5,1,1,33,34,35,36,37],"#,
        r#""receive_queue":[["damaged",65,false],["doubled",255,false],["plain",34,false],"#,
        &r#"["damaged",66,false],"#.repeat(9),
        r#"["damaged",66,true]],"transmit_queue":[65],"literal_mark":true,"stopped":true,"#,
        r#""owed_nl":true,"waiting_special":35,"cts":1,"loss_count":2}"#,
    ];
    let account = program(trace.join("\n").as_bytes());
    assert_eq!(account.lines().count(), trace.len() + 1);
    assert_eq!(
        account.lines().last(),
        Some(&line("[0,1]", "1", &channel.concat())[..])
    );
}
