//! Decode then encode gives the bytes back, whatever they are; encode reads what a person writes.

use form::{brief, decode, encode};

fn next(seed: &mut u64) -> u64 {
    *seed = seed.wrapping_add(0x9e37_79b9_7f4a_7c15);
    let mixed = (*seed ^ (*seed >> 30)).wrapping_mul(0xbf58_476d_1ce4_e5b9);
    let mixed = (mixed ^ (mixed >> 27)).wrapping_mul(0x94d0_49bb_1331_11eb);
    mixed ^ (mixed >> 31)
}

fn same(bytes: &[u8]) {
    assert_eq!(encode(&decode(bytes)).as_deref(), Ok(bytes), "{bytes:02x?}");
    assert_eq!(encode(&brief(bytes)).as_deref(), Ok(bytes), "{bytes:02x?}");
}

#[test]
fn random_bytes() {
    let mut seed = 7;
    for _ in 0..20_000 {
        let length = next(&mut seed) % 60;
        // small bytes make kinds and fields, large ones make numbers that go on
        let small = next(&mut seed).is_multiple_of(2);
        let byte = |word: u64| if small { (word % 8) as u8 } else { word as u8 };
        let bytes: Vec<u8> = (0..length).map(|_| byte(next(&mut seed))).collect();
        same(&bytes);
    }
}

const WHOLE: &str = "node site=3
gpu type=0 memory=80 group=2 mig=yes
quota tenant=0 gpus=4
profile number=0 most=7
job arrival=0 duration=1.5 priority=-3 gpus=1 memory=0 type=- site=- tenant=0 gang=no nodes=0 network=no timeout=0 profile=- slices=0
options seconds=30 penalty=0 multiplier=1 fit=first quota-aware=yes
end
";

#[test]
fn the_text_of_a_whole_trace_is_kept() {
    let bytes = encode(WHOLE).expect("the text is right");
    assert_eq!(decode(&bytes), WHOLE);
}

#[test]
fn damaged_traces() {
    let whole = encode(WHOLE).expect("the text is right");
    let mut seed = 11;
    for length in 0..whole.len() {
        same(&whole[..length]);
        for _ in 0..40 {
            let mut bytes = whole.clone();
            bytes[length] = next(&mut seed) as u8;
            same(&bytes);
            bytes.insert(length, next(&mut seed) as u8);
            same(&bytes);
        }
    }
    let mut longer = whole.clone();
    longer.extend_from_slice(&[0, 1, 2, 0x80]);
    same(&longer);
    assert!(decode(&longer).ends_with("end\nraw 00 01 02 80\n"));
}

#[test]
fn the_worked_example() {
    let bytes = encode("node\ngpu\njob duration=1 gpus=1\nend").expect("the text is right");
    let mut expected = vec![
        1, 0, 2, 0, 0, 0, 0, 5, 0, 128, 128, 128, 128, 128, 128, 128, 0xf8, 0x3f, 0, 1,
    ];
    expected.extend_from_slice(&[0; 11]);
    assert_eq!(bytes, expected);
}

#[test]
fn left_out_fields_and_comments() {
    let bytes = encode("# a hall\n options fit=best # all else as usual\n\nend\n")
        .expect("the text is right");
    let text = "options seconds=30 penalty=0 multiplier=1 fit=best quota-aware=yes\nend\n";
    assert_eq!(decode(&bytes), text);
    assert_eq!(brief(&bytes), "options fit=best\nend\n");
}

#[test]
fn a_field_out_of_range_is_still_a_record() {
    let bytes = encode("node site=900\ngpu mig=7\noptions fit=9\nend").expect("the text is right");
    assert_eq!(
        brief(&bytes),
        "node site=900\ngpu mig=7\noptions fit=9\nend\n"
    );
}

#[test]
fn unreadable_bytes_are_raw() {
    assert_eq!(decode(&[1, 0, 2, 0x80, 0]), "node site=-\nraw 02 80 00\n");
    assert_eq!(decode(&[7]), "raw 07\n");
}

#[test]
fn faults_name_the_line() {
    for (text, line, part) in [
        ("node\nnodes\n", 2, "nodes"),
        ("end\n\ngpu kind=3", 3, "kind"),
        ("gpu mig=maybe", 1, "maybe"),
        ("job gpus=1 gpus=2", 1, "twice"),
        ("job gpus", 1, "name=value"),
        ("raw 0", 1, "byte"),
        ("raw +1", 1, "byte"),
    ] {
        let fault = encode(text).expect_err(text);
        assert_eq!(fault.line, line, "{text}");
        assert!(fault.what.contains(part), "{text}: {fault}");
    }
}
