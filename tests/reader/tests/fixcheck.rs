//! What the program `fixcheck` has to print (request No. 12): its files are as the reader here says, and lines that were
//! written by hand from the request and JR/T 0087 are among them.

use reader::fix_calls::{calls, files, Call};
use std::path::Path;

#[test]
fn files_of_the_repository() {
    let folder = Path::new(env!("CARGO_MANIFEST_DIR")).join("../../crates/fixcheck");
    let (input, output) = files();
    // So much the program reads.
    assert!(input.len() <= 65_536);
    assert!(std::fs::read(folder.join("stdin")).unwrap() == input, "stdin: see src/bin/frames.rs");
    assert!(std::fs::read_to_string(folder.join("stdout")).unwrap() == output, "stdout: see src/bin/frames.rs");
}

/// Every answer is among them, of reading and of writing.
#[test]
fn all_answers() {
    let lines: Vec<(bool, String)> =
        calls().iter().map(|call| (matches!(call, Call::Write { .. }), call.line())).collect();
    let some = |write: bool, answer: &str| lines.iter().any(|(w, line)| *w == write && line.contains(answer));
    for kind in ["0", "1", "2", "4", "5", "A", "-"] {
        for judged in ["next", "again", "gap"] {
            assert!(some(false, &format!(" {judged} {kind}@")), "{judged} {kind}");
        }
    }
    for answer in [" reset 4@", " refused 28", " refused 29", " refused 30"] {
        assert!(some(false, answer), "{answer}");
    }
    for answer in [" written 32", " refused 28", " refused 18", " refused 29"] {
        assert!(some(true, answer), "{answer}");
    }
}

/// A call with the line's beginning, behind `;` the rest of the line, behind the sum where the call ends with `10=`. `..`
/// stands for the fields of the header, `(0)` for an output as it was, `~` for a space.
const BY_HAND: &str = r"
r1 8=FIX.4.2|9=61|35=A|49=FUND|56=BROKER|34=1|52=20121226-01:00:00|98=0|108=30|10=016| ->; 2 next A@18+1=A 1/0/30/0 67+1=0 20+56=49=FUND|56=BROKER|34=1|52=20121226-01:00:00|98=0|108=30|
r5 8=FIX.4.2|9=49|35=0|..10=240| ->; 6 next 0@18+1=0 5/0/0/0 0+0= 20+44=..
r3 8=FIX.4.2|9=49|35=0|..10=240| ->; 3 gap 0@18+1=0 5/0/0/0 0+0= 20+44=..
r9 8=FIX.4.2|9=49|35=0|..10=240| ->; 9 refused 30
r9 8=FIX.4.2|9=54|35=0|..43=Y|10=234| ->; 9 again 0@18+1=0 5/0/0/0 0+0= 20+49=..43=Y|
r9 8=FIX.4.2|9=54|35=0|..43=N|10=223| ->; 9 refused 30
r5 8=FIX.4.2|9=56|35=1|..112=T1|10=070| ->; 6 next 1@18+1=1 5/0/0/0 68+2=T1 20+51=..112=T1|
r5 8=FIX.4.2|9=49|35=1|..10=241| ->; 5 refused 29
r5 8=FIX.4.2|9=58|35=2|..7=3|16=0|10=111| ->; 6 next 2@18+1=2 5/3/0/0 66+1=3 20+53=..7=3|16=0|
r5 8=FIX.4.2|9=58|35=2|..7=4|16=3|10=115| ->; 5 refused 28
r5 8=FIX.4.2|9=60|35=4|..123=Y|36=9|10=250| ->; 6 next 4@18+1=4 5/9/0/1 73+1=9 20+55=..123=Y|36=9|
r7 8=FIX.4.2|9=60|35=4|..123=Y|36=9|10=250| ->; 7 refused 30
r7 8=FIX.4.2|9=54|35=4|..36=9|10=208| ->; 7 reset 4@18+1=4 5/9/0/0 67+1=9 20+49=..36=9|
r5 8=FIX.4.2|9=56|35=5|..58=bye|10=222| ->; 6 next 5@18+1=5 5/0/0/0 0+0= 20+51=..58=bye|
r5 8=FIX.4.2|9=75|35=A|..98=0|108=30|95=5|96=a|b=c|10=011| ->; 6 next A@18+1=A 5/0/30/0 67+1=0 20+70=..98=0|108=30|95=5|96=a|b=c|
r5 8=FIX.4.2|9=75|35=A|..98=0|108=30|95=4|96=a|b=c|10=010| ->; 5 refused 28
r5 8=FIX.4.2|9=10|35=D|34=5|10=187| ->; 6 next -@18+1=D 5/0/0/0 0+0= 20+5=34=5|
r5 8=FIX.4.2|9=10|35=D|34=5|10=188| ->; 5 refused 28
r5 8=FIX.4.2|9=11|35=D|34=5|10=188| ->; 5 refused 28
r5 8=FIX.4.2|9=13|35=D|49=FUND|10=188| ->; 5 refused 29
r5 8=FIX.4.2|9=15|35=D|34=5|34=5|10=154| ->; 5 refused 29
r5 8=FIX.4.2|9=15|35=D|34=5|34=x|10=221| ->; 5 refused 28
r5 8=FIX.4.2|9=20|35=D|34=5|43=Y|43=Y|10=184| ->; 5 refused 29
r5 8=FIX.4.2|9=19|35=D|34=0000000005|10=116| ->; 5 refused 28
r999999999 8=FIX.4.2|9=18|35=D|34=999999999|10=143| ->; 1000000000 next -@18+1=D 999999999/0/0/0 0+0= 20+13=34=999999999|
r1000000000 8=FIX.4.2|9=18|35=D|34=999999999|10=143| ->; 1000000000 refused 30
r5 8=FIX.4.2|9=30|35=D|34=5|95=10|96=34=6|43=Y||10=;| -> 6 next -@18+1=D 5/0/0/0 0+0= 20+25=34=5|95=10|96=34=6|43=Y||
r6 8=FIX.4.2|9=26|35=UF001|34=5|58=own|43=Y|10=;| -> 6 again -@18+5=UF001 5/0/0/0 0+0= 24+17=34=5|58=own|43=Y|
w31 1D34=5| ->; (0) refused 18
w32 1D34=5| ->; 8=FIX.4.2|9=10|35=D|34=5|10=187| written 32
w33 1D34=5| ->; 8=FIX.4.2|9=10|35=D|34=5|10=187|\0 written 32
w0 034=5| ->; (0) refused 28
w120 1D34=x| ->; (0) refused 28
w0 1D34=x| ->; (0) refused 28
w20 1D ->; (0) refused 18
w80 1D ->; (0) refused 29
w80 1D34=5|10=187| ->; (0) refused 29
i7 49=FUND|56=BROKER|34=005|52=now|98=0|108=30|95=5|96=a|b=c|58=a|58=b| ->; 96@52+5=a|b=c a|b=c
i9 49=FUND|56=BROKER|34=005|52=now|98=0|108=30|95=5|96=a|b=c|58=a|58=b| ->; 58@66+1=b b
i10 49=FUND|56=BROKER|34=005|52=now|98=0|108=30|95=5|96=a|b=c|58=a|58=b| ->; none~
t34 49=FUND|56=BROKER|34=005|52=now|98=0|108=30|95=5|96=a|b=c|58=a|58=b| ->; 34@21+3=005 5
t58 49=FUND|56=BROKER|34=005|52=now|98=0|108=30|95=5|96=a|b=c|58=a|58=b| ->; 58@61+1=a 0
t43 49=FUND|56=BROKER|34=005|52=now|98=0|108=30|95=5|96=a|b=c|58=a|58=b| ->; none 0
";

#[test]
fn lines_by_hand() {
    let lines: Vec<String> = calls().iter().map(Call::line).collect();
    for hand in BY_HAND.trim_start().lines() {
        let hand = hand.replace("..", "49=FUND|56=BROKER|34=5|52=20121226-01:00:00|").replace('~', " ");
        let (start, rest) = hand.split_once(';').expect("two parts");
        let number: usize = start[1..].split(' ').next().and_then(|number| number.parse().ok()).expect("a number");
        let rest = if rest.contains("(0)") { rest.replace("(0)", &r"\0".repeat(number)) } else { rest.to_string() };
        let sum = if start.ends_with("10=") { 3 } else { 0 };
        let found: Vec<&str> = lines.iter().filter_map(|line| line.strip_prefix(start)).collect();
        assert!(!found.is_empty(), "no call {start}");
        for line in found {
            assert_eq!(line[sum..], rest, "{start}");
        }
    }
}
