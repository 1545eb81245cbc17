//! Spans and steps of a small plan, refused input, and the pictures of the samples.

use picture::axis::Axis;
use picture::span::{rows, Span};
use picture::{panel, picture, plan, trace};
use std::fs;
use std::process::{Command, Stdio};

const SAMPLES: &str = concat!(env!("CARGO_MANIFEST_DIR"), "/../../samples");

const TRACE: &str = "options penalty=3\nnode\ngpu\ngpu\nprofile number=0 most=7
job duration=10 gpus=2
job arrival=4 duration=2 priority=5 gpus=1
job arrival=7 duration=1 priority=5 gpus=2
job arrival=5 gpus=3 gang=yes nodes=2 timeout=1
job arrival=8.5 profile=0 slices=6 tenant=9\nend\n";

/// Job 0 makes way twice, the second time before it starts; the last job is never placed.
const PLAN: &str = "0 arrived 0,0 started 0 2,4 arrived 1,4 evicted 0 1,4 started 1 1,5 arrived 3,\
                    6 completed 1 1,9 started 0 2,6 failed 3,7 arrived 2,7 evicted 0 2,7 started 2 2,\
                    8 completed 2 2,11 started 0 2,8.5 arrived 4,17 completed 0 2,end 11";

/// The lines of a plan whose times are written in seconds.
fn lines(plan: &str) -> String {
    let line = |line: &str| match line.split_once(' ') {
        Some((time, rest)) if !["end", "refused"].contains(&time) => {
            let time: f64 = time.parse().expect("a time");
            format!("{:016x} {rest}\n", time.to_bits())
        }
        _ => format!("{line}\n"),
    };
    plan.split(',').map(line).collect()
}

#[test]
fn spans_of_a_small_plan() {
    let trace = trace::read(TRACE.as_bytes()).expect("a trace");
    let plan = plan::read(&lines(PLAN)).expect("a plan");
    let told = |span: &Span| format!("{:?} {} {},", span.sort, span.from, span.to);
    let rows = rows(&trace, &plan).expect("rows");
    let rows: Vec<String> = rows
        .iter()
        .map(|row| row.iter().map(told).collect())
        .collect();
    let expected = [
        "Running 0 4,Evicted(1) 4 4,Waiting 4 7,Held 6 7,Evicted(2) 7 7,\
         Waiting 7 11,Held 8 11,Running 11 17,Completed 17 17,",
        "Running 4 6,Completed 6 6,",
        "Running 7 8,Completed 8 8,",
        "Waiting 5 6,Failed 6 6,",
        "Waiting 8.5 inf,",
    ];
    assert_eq!(rows, expected);
    // two GPUs are held from the clock on, also where the job starts later
    let steps = [(0.0, 2), (4.0, 1), (6.0, 2), (7.0, 2), (8.0, 2), (17.0, 0)];
    assert_eq!(panel::steps(&trace, &plan, false), steps);
    assert_eq!(panel::steps(&trace, &plan, true), []);
}

#[test]
fn named_times() {
    let named = |last: f64| {
        let (ticks, unit) = Axis::new(&[0.0, last], 200.0, 1180.0).ticks();
        (ticks[1].text.clone(), ticks.len(), unit)
    };
    assert_eq!(named(11_000.0), ("0:15".to_string(), 13, "h:mm"));
    assert_eq!(named(17.0), ("2".to_string(), 9, "seconds"));
    assert_eq!(named(0.05), ("0.005".to_string(), 11, "seconds"));
    assert_eq!(named(1e6), ("1".to_string(), 12, "days"));
}

/// A trace, a plan and what is told of them; the first is drawn.
const REFUSED: &str = "\
node;gpu;job duration=1 gpus=1;end | 0 arrived 0,0 started 0 1,1 completed 0 1,end 2 | drawn
node;gpu;job duration=1 gpus=1 | end 0 | the trace has no end record
job tenant=32;end | end 0 | job 0 has a field out of its range
node;raw 09;end | end 0 | bytes that are no record
nodes;end | end 0 | trace, line 1: no record is called `nodes`
job gpus=1;end | refused 4 at 7 | the trace is refused: 4 at byte 7
job gpus=1;end | 0 arrived 0 | no last line
job gpus=1;end | 0 arrived 0,end 1,end 1 | line 3 is no line
job gpus=1;end | 0 arrived,end 1 | line 1 is no line
job gpus=1;end | 0 came 0,end 1 | line 1 is no line
job gpus=1;end | -1 arrived 0,end 1 | line 1 is no line
job gpus=1;job;end | 0 arrived 0,0 arrived 1,0 started 0 1,0 started 2 1,end 1 | line 4: the trace has only 2 jobs
job gpus=1;end | 0 arrived 0,0 started 0 1,0 evicted 0 1,end 1 | line 3: the trace has only 1 job
job gpus=1;end | 3 arrived 0,end 1 | line 1: no plan of this trace
job gpus=1;end | 0 arrived 0,0 started 0 2,end 1 | line 2: no plan of this trace
job gpus=1;end | 0 arrived 0,0 completed 0 1,end 1 | line 2: no plan of this trace
job gpus=1;end | 0 arrived 0,3 started 0 1,5 evicted 0 0,4 failed 0,end 1 | line 4 is no line
job gpus=1;end | 0 arrived 0,0 started 0 1,end 1 | too early for job 0
job gpus=1;end | end 0 | too early for job 0";

#[test]
fn refused_input() {
    for line in REFUSED.lines() {
        let parts: Vec<&str> = line.split(" | ").collect();
        let drawn = picture("", parts[0].replace(';', "\n").as_bytes(), &lines(parts[1]));
        let told = drawn.map_or_else(|what| what, |_| "drawn".to_string());
        assert!(told.contains(parts[2]), "{line}: {told}");
    }
    assert!(picture("", &[1, 0], "end 0").is_err());
}

/// The running job has no end: its bar reaches the right edge.
#[test]
fn a_plan_that_stopped_is_drawn() {
    let trace = "node\ngpu\njob duration=1 gpus=1\njob arrival=9\nend";
    let plan = lines("0 arrived 0,0 started 0 1,refused 12");
    let svg = picture("a<&\u{1}", trace.as_bytes(), &plan).expect("a picture");
    well_formed(&svg);
    assert!(svg.contains("<title>a&lt;&amp;\u{fffd}: 2 jobs, 2 decisions, 0 evictions, 0 failed,"));
    assert!(svg.contains("0 still waiting, stopped by refusal 12</title>"));
    let bar = svg.lines().filter(|line| line.contains("class='run none'"));
    let end = bar.filter_map(|line| Some(number(line, " x='")? + number(line, " width='")?));
    let widest = end.fold(0.0, f64::max);
    assert!((widest - 1184.0).abs() < 0.2, "{widest}");
}

/// The number after that mark.
fn number(text: &str, mark: &str) -> Option<f64> {
    text.split_once(mark)?.1.split('\'').next()?.parse().ok()
}

#[test]
fn many_jobs_fit_a_page() {
    let trace = "job tenant=31 gpus=128 gang=yes nodes=32\n".repeat(128) + "end";
    let arrived = |job: usize| format!("0 arrived {job},");
    let plan = lines(&((0..128).map(arrived).collect::<String>() + "end 128"));
    let svg = picture("many", trace.as_bytes(), &plan).expect("a picture");
    well_formed(&svg);
    let height = number(&svg, " height='").expect("a height");
    assert!((1200.0..1450.0).contains(&height), "{height}");
}

/// Every tag is closed in its order, and every `&` begins an escape.
fn well_formed(svg: &str) {
    let mut open = Vec::new();
    for part in svg.split('<').skip(1) {
        let (tag, text) = part.split_once('>').expect("a tag ends");
        let name = tag.split([' ', '/']).find(|word| !word.is_empty());
        match (tag.starts_with('/'), tag.ends_with('/')) {
            (true, _) => assert_eq!(open.pop(), name),
            (_, true) => {}
            _ => open.push(name.expect("a name")),
        }
        assert_eq!(tag.matches('\'').count() % 2, 0, "{tag}");
        let escapes = ["amp;", "lt;", "gt;"];
        assert!(text
            .split('&')
            .skip(1)
            .all(|rest| escapes.iter().any(|it| rest.starts_with(it))));
        assert!(!open.is_empty() || text == "\n", "{text}");
    }
    assert!(open.is_empty(), "{open:?}");
}

#[test]
fn every_sample_has_a_row_a_job() {
    let mut drawn = 0;
    for entry in fs::read_dir(SAMPLES).expect("samples").flatten() {
        let path = entry.path();
        if path.extension().is_some_and(|ending| ending == "txt") {
            let text = fs::read_to_string(&path).expect("a text");
            let plan = fs::read_to_string(path.with_extension("expected")).expect("a plan");
            let svg = picture("sample", text.as_bytes(), &plan).expect("a picture");
            well_formed(&svg);
            let jobs = text.lines().filter(|line| line.starts_with("job ")).count();
            assert_eq!(svg.matches("<g class='row'").count(), jobs);
            let bytes = form::encode(&text).expect("a trace");
            assert_eq!(picture("sample", &bytes, &plan), Ok(svg));
            drawn += 1;
        }
    }
    assert!(drawn > 10);
}

fn command(trace: &str, plan: &str) -> std::process::Output {
    let plan = fs::File::open(format!("{SAMPLES}/{plan}")).expect("a plan");
    let mut command = Command::new(env!("CARGO_BIN_EXE_picture"));
    command
        .arg(format!("{SAMPLES}/{trace}"))
        .stdin(Stdio::from(plan));
    command.output().expect("the command starts")
}

/// `picture samples/match-night.txt < samples/match-night.expected > samples/match-night.svg` makes it anew.
#[test]
fn the_stored_picture_is_the_one_made_now() {
    let stored = fs::read(format!("{SAMPLES}/match-night.svg")).expect("the stored picture");
    let output = command("match-night.txt", "match-night.expected");
    assert!(output.status.success());
    assert!(
        output.stdout == stored,
        "samples/match-night.svg is not what picture makes"
    );
}

#[test]
fn a_plan_of_another_trace_is_refused() {
    let output = command("match-night.txt", "example-d.expected");
    assert_eq!(output.status.code(), Some(2));
    assert!(output.stdout.is_empty());
    let told = String::from_utf8_lossy(&output.stderr);
    assert!(told.starts_with("picture: plan, line"), "{told}");
}
