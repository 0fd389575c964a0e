//! Worked frames of request No. 12, each with its answer written by hand. `|` stands for the separator.

use crate::fix::{framed, Judgement, SOH};

/// Bytes read with an expected number, the judgement or the refusal, and the expected number afterwards.
pub struct Case {
    pub what: &'static str,
    pub bytes: Vec<u8>,
    pub expected: u32,
    pub answer: Result<Judgement, u8>,
    pub after: u32,
}

/// The bytes of a text.
pub fn bytes(text: &str) -> Vec<u8> {
    text.bytes().map(|b| if b == b'|' { SOH } else { b }).collect()
}

fn parsed(table: &'static str, whole: bool) -> Vec<Case> {
    let lines: Vec<&str> = table.lines().collect();
    let case = |rows: &[&'static str]| {
        let (what, numbers) = rows[0].split_once("; ").expect("a name");
        let numbers: Vec<&str> = numbers.split(' ').collect();
        let answer = match numbers[1] {
            "next" => Ok(Judgement::Next),
            "again" => Ok(Judgement::Again),
            "gap" => Ok(Judgement::Gap),
            "reset" => Ok(Judgement::Reset),
            row => Err(row.parse().expect("a refusal")),
        };
        let bytes = if whole { bytes(rows[1]) } else { framed(&bytes(rows[1])) };
        Case {
            what,
            bytes,
            expected: numbers[0].parse().expect("a number"),
            answer,
            after: numbers[2].parse().expect("a number"),
        }
    };
    lines.chunks_exact(2).map(case).collect()
}

/// Whole inputs.
pub fn worked() -> Vec<Case> {
    parsed(WORKED, true)
}

/// Bodies, here with their frames; places where a reader easily goes wrong.
pub fn traps() -> Vec<Case> {
    parsed(TRAPS, false)
}

const WORKED: &str = "\
logon; 1 next 2
8=FIX.4.2|9=61|35=A|49=FUND|56=BROKER|34=1|52=20121226-01:00:00|98=0|108=30|10=016|
heartbeat, equal; 5 next 6
8=FIX.4.2|9=49|35=0|49=FUND|56=BROKER|34=5|52=20121226-01:00:00|10=240|
heartbeat, higher; 3 gap 3
8=FIX.4.2|9=49|35=0|49=FUND|56=BROKER|34=5|52=20121226-01:00:00|10=240|
heartbeat, lower, no flag; 9 30 9
8=FIX.4.2|9=49|35=0|49=FUND|56=BROKER|34=5|52=20121226-01:00:00|10=240|
heartbeat, lower, flag; 9 again 9
8=FIX.4.2|9=54|35=0|49=FUND|56=BROKER|34=5|52=20121226-01:00:00|43=Y|10=234|
heartbeat, lower, flag N; 9 30 9
8=FIX.4.2|9=54|35=0|49=FUND|56=BROKER|34=5|52=20121226-01:00:00|43=N|10=223|
number with zeros in front; 5 next 6
8=FIX.4.2|9=51|35=0|49=FUND|56=BROKER|34=005|52=20121226-01:00:00|10=073|
test request; 5 next 6
8=FIX.4.2|9=56|35=1|49=FUND|56=BROKER|34=5|52=20121226-01:00:00|112=T1|10=070|
test request, 112 missing; 5 29 5
8=FIX.4.2|9=49|35=1|49=FUND|56=BROKER|34=5|52=20121226-01:00:00|10=241|
resend request, all that follow; 5 next 6
8=FIX.4.2|9=58|35=2|49=FUND|56=BROKER|34=5|52=20121226-01:00:00|7=3|16=0|10=111|
resend request, last below first; 5 28 5
8=FIX.4.2|9=58|35=2|49=FUND|56=BROKER|34=5|52=20121226-01:00:00|7=4|16=3|10=115|
gap fill, equal; 5 next 6
8=FIX.4.2|9=60|35=4|49=FUND|56=BROKER|34=5|52=20121226-01:00:00|123=Y|36=9|10=250|
gap fill, lower, no flag; 7 30 7
8=FIX.4.2|9=60|35=4|49=FUND|56=BROKER|34=5|52=20121226-01:00:00|123=Y|36=9|10=250|
reset, lower, no flag; 7 reset 7
8=FIX.4.2|9=54|35=4|49=FUND|56=BROKER|34=5|52=20121226-01:00:00|36=9|10=208|
logout; 5 next 6
8=FIX.4.2|9=56|35=5|49=FUND|56=BROKER|34=5|52=20121226-01:00:00|58=bye|10=222|
raw data with SOH inside; 5 next 6
8=FIX.4.2|9=75|35=A|49=FUND|56=BROKER|34=5|52=20121226-01:00:00|98=0|108=30|95=5|96=a|b=c|10=011|
raw data, length one less; 5 28 5
8=FIX.4.2|9=75|35=A|49=FUND|56=BROKER|34=5|52=20121226-01:00:00|98=0|108=30|95=4|96=a|b=c|10=010|
order, only the number; 5 next 6
8=FIX.4.2|9=10|35=D|34=5|10=187|
order, no number; 5 29 5
8=FIX.4.2|9=13|35=D|49=FUND|10=188|
order, 34 twice; 5 29 5
8=FIX.4.2|9=15|35=D|34=5|34=5|10=154|
order, flag twice; 5 29 5
8=FIX.4.2|9=20|35=D|34=5|43=Y|43=Y|10=184|
order, type twice; 5 29 5
8=FIX.4.2|9=15|35=D|34=5|35=D|10=170|
order, 34 twice, one no number; 5 28 5
8=FIX.4.2|9=15|35=D|34=5|34=x|10=221|
tag with a zero in front; 5 28 5
8=FIX.4.2|9=11|35=D|034=5|10=236|
body length with a zero in front; 5 28 5
8=FIX.4.2|9=010|35=D|34=5|10=235|
ten digits; 5 28 5
8=FIX.4.2|9=19|35=D|34=0000000005|10=116|
empty text; 5 28 5
8=FIX.4.2|9=14|35=D|34=5|58=|10=106|
checksum one more; 5 28 5
8=FIX.4.2|9=10|35=D|34=5|10=188|
other begin string; 5 28 5
8=CSIFP.1.0.0|9=10|35=D|34=5|10=162|
the last number there is; 999999999 next 1000000000
8=FIX.4.2|9=18|35=D|34=999999999|10=143|
nothing is next any more; 1000000000 30 1000000000
8=FIX.4.2|9=18|35=D|34=999999999|10=143|
two frames; 5 28 5
8=FIX.4.2|9=10|35=D|34=5|10=187|8=FIX.4.2|9=10|35=D|34=6|10=188|
body length one more; 5 28 5
8=FIX.4.2|9=11|35=D|34=5|10=188|
body length one less; 5 28 5
8=FIX.4.2|9=9|35=D|34=5|10=147|
no body length; 5 28 5
8=FIX.4.2|9=|35=D|34=5|10=090|
checksum below 100; 5 next 6
8=FIX.4.2|9=16|35=D|34=5|58=yz|10=095|
checksum of two digits; 5 28 5
8=FIX.4.2|9=16|35=D|34=5|58=yz|10=95|
checksum below 10; 5 next 6
8=FIX.4.2|9=16|35=D|34=5|58=AZ|10=007|
checksum of one digit; 5 28 5
8=FIX.4.2|9=16|35=D|34=5|58=AZ|10=7|
checksum of four digits; 5 28 5
8=FIX.4.2|9=10|35=D|34=5|10=0187|
checksum not reduced; 5 28 5
8=FIX.4.2|9=10|35=D|34=5|10=1211|
FIX.4.4; 5 28 5
8=FIX.4.4|9=10|35=D|34=5|10=189|
a byte behind; 5 28 5
8=FIX.4.2|9=10|35=D|34=5|10=187||
a byte in front; 5 28 5
|8=FIX.4.2|9=10|35=D|34=5|10=187|
the last byte missing; 5 28 5
8=FIX.4.2|9=10|35=D|34=5|10=187
8 and 9 in other order; 5 28 5
9=10|8=FIX.4.2|35=D|34=5|10=187|
";

const TRAPS: &str = "\
28 over all fields before 29 over any; 5 28 5
35=D|34=5|34=5|34=x|
a required tag missing and a number wrong; 5 28 5
35=A|34=x|
reset without 36; 5 29 5
35=4|49=FUND|56=BROKER|34=5|52=20121226-01:00:00|
reset, 43 twice; 5 29 5
35=4|49=FUND|56=BROKER|34=5|52=20121226-01:00:00|36=9|43=Y|43=Y|
reset, 36 no number; 5 28 5
35=4|49=FUND|56=BROKER|34=5|52=20121226-01:00:00|36=9a|
reset, 34 twice; 5 29 5
35=4|49=FUND|56=BROKER|34=5|52=20121226-01:00:00|36=9|34=5|
reset, no 34; 5 29 5
35=4|49=FUND|56=BROKER|52=20121226-01:00:00|36=9|
reset, equal; 5 reset 5
35=4|49=FUND|56=BROKER|34=5|52=20121226-01:00:00|36=9|
reset, higher; 1 reset 1
35=4|49=FUND|56=BROKER|34=5|52=20121226-01:00:00|36=9|
reset that lowers the number; 7 reset 7
35=4|49=FUND|56=BROKER|34=5|52=20121226-01:00:00|36=0|
reset, gap fill N; 5 reset 5
35=4|49=FUND|56=BROKER|34=5|52=20121226-01:00:00|36=9|123=N|
reset, gap fill y; 5 reset 5
35=4|49=FUND|56=BROKER|34=5|52=20121226-01:00:00|36=9|123=y|
reset, gap fill YY; 5 reset 5
35=4|49=FUND|56=BROKER|34=5|52=20121226-01:00:00|36=9|123=YY|
gap fill N and Y; 5 next 6
35=4|49=FUND|56=BROKER|34=5|52=20121226-01:00:00|123=N|36=9|123=Y|
gap fill, higher; 4 gap 4
35=4|49=FUND|56=BROKER|34=5|52=20121226-01:00:00|123=Y|36=9|
gap fill, lower, flag; 6 again 6
35=4|49=FUND|56=BROKER|34=5|52=20121226-01:00:00|123=Y|36=9|43=Y|
gap fill Y in a heartbeat; 5 next 6
35=0|49=FUND|56=BROKER|34=5|52=20121226-01:00:00|123=Y|36=x|
10= inside a text; 5 next 6
35=D|34=5|58=10=123|
10= inside data; 5 next 6
35=A|49=FUND|56=BROKER|34=5|52=20121226-01:00:00|98=0|108=30|95=8|96=|10=123||
10= as a field of the body; 5 29 5
35=D|34=5|10=123|
10= as the first field; 5 28 5
10=123|35=D|34=5|
8= as a field of the body; 5 29 5
35=D|8=FIX.4.2|34=5|
9= as a field of the body; 5 29 5
35=D|34=5|9=5|
35 not first; 5 28 5
34=5|35=D|
no 35; 5 28 5
34=5|
no body; 5 28 5

the shortest body; 5 29 5
35=0|
no type; 5 28 5
35=|34=5|
flag Y, equal; 5 next 6
35=D|34=5|43=Y|
flag Y, higher; 4 gap 4
35=D|34=5|43=Y|
flag Y, lower; 6 again 6
35=D|34=5|43=Y|
flag Y, lower, first sent later; 6 again 6
35=0|49=FUND|56=BROKER|34=5|52=20121226-01:00:00|43=Y|122=20121226-02:00:00|
flag YY, lower; 6 30 6
35=D|34=5|43=YY|
flag y, lower; 6 30 6
35=D|34=5|43=y|
flag Y and N; 6 29 6
35=D|34=5|43=Y|43=N|
flag Y as the text of another field; 6 30 6
35=D|34=5|143=Y|
zero is a number; 0 next 1
35=D|34=0|
zero is lower than one; 1 30 1
35=D|34=0|
zero with flag; 1 again 1
35=D|34=000|43=Y|
nine digits; 5 next 6
35=D|34=000000005|
a sign; 5 28 5
35=D|34=-5|
a plus; 5 28 5
35=D|34=+5|
a point; 5 28 5
35=D|34=5.0|
a space; 5 28 5
35=D|34= 5|
an expected number above all; 4294967295 again 4294967295
35=D|34=999999999|43=Y|
no next above all; 4294967295 30 4294967295
35=D|34=999999999|
data without its length; 5 28 5
35=D|34=5|96=abc|
data behind the length of other data; 5 28 5
35=D|34=5|90=3|96=abc|
data apart from its length; 5 28 5
35=D|34=5|95=3|58=x|96=abc|
data before its length; 5 28 5
35=D|34=5|96=abc|95=3|
data twice behind one length; 5 28 5
35=D|34=5|95=3|96=abc|96=abc|
data with two lengths, the last counts; 5 next 6
35=D|34=5|95=9|95=3|96=abc|
data with two lengths, the first shorter; 5 next 6
35=D|34=5|95=2|95=3|96=abc|
data with two lengths in a logon; 5 next 6
35=A|49=FUND|56=BROKER|34=5|52=20121226-01:00:00|98=0|108=30|95=2|95=3|96=abc|
data apart from its length in a logon; 5 28 5
35=A|49=FUND|56=BROKER|34=5|52=20121226-01:00:00|98=0|108=30|95=3|383=9|96=abc|
data closed by another byte; 5 28 5
35=A|49=FUND|56=BROKER|34=5|52=20121226-01:00:00|98=0|108=30|95=3|96=abc;383=9|
data of length 0; 5 28 5
35=D|34=5|95=0|96=|
data, length one more; 5 28 5
35=D|34=5|95=4|96=abc|
data, length one more, SOH there; 5 next 6
35=D|34=5|95=4|96=abc||
data, length up to the end of the body; 5 28 5
35=D|34=5|95=3|96=abc
data, length far behind the frame; 5 28 5
35=D|34=5|95=999999999|96=abc|
data, length with zeros in front; 5 next 6
35=D|34=5|95=000000003|96=abc|
data, length of ten digits; 5 28 5
35=D|34=5|95=0000000003|96=abc|
data, length with a sign; 5 28 5
35=D|34=5|95=-3|96=abc|
data that holds fields; 5 next 6
35=D|34=5|95=10|96=34=6|43=Y||
secure data; 5 next 6
35=D|34=5|90=3|91=a|b|
signature; 5 next 6
35=D|34=5|93=3|89=a|b|
encoded text; 5 next 6
35=D|34=5|354=3|355=a|b|
a length without data, other type; 5 next 6
35=D|34=5|95=x|
a length without data, unlisted; 5 next 6
35=0|49=FUND|56=BROKER|34=5|52=20121226-01:00:00|95=x|
a length without data, listed; 5 28 5
35=A|49=FUND|56=BROKER|34=5|52=20121226-01:00:00|98=0|108=30|95=x|
a length without data, header; 5 28 5
35=0|49=FUND|56=BROKER|34=5|52=20121226-01:00:00|90=x|
a length without data, trailer; 5 28 5
35=0|49=FUND|56=BROKER|34=5|52=20121226-01:00:00|93=x|
a length without data, logout; 5 28 5
35=5|49=FUND|56=BROKER|34=5|52=20121226-01:00:00|354=x|
369 no number; 5 28 5
35=0|49=FUND|56=BROKER|34=5|52=20121226-01:00:00|369=x|
369 no number, other type; 5 next 6
35=3|49=FUND|56=BROKER|34=5|52=20121226-01:00:00|369=x|
98 no number; 5 28 5
35=A|49=FUND|56=BROKER|34=5|52=20121226-01:00:00|98=x|108=30|
98 above 6; 5 next 6
35=A|49=FUND|56=BROKER|34=5|52=20121226-01:00:00|98=7|108=30|
108 missing; 5 29 5
35=A|49=FUND|56=BROKER|34=5|52=20121226-01:00:00|98=0|
98 twice; 5 29 5
35=A|49=FUND|56=BROKER|34=5|52=20121226-01:00:00|98=0|98=0|108=30|
383 no number; 5 28 5
35=A|49=FUND|56=BROKER|34=5|52=20121226-01:00:00|98=0|108=30|383=x|
384 with its group; 5 next 6
35=A|49=FUND|56=BROKER|34=5|52=20121226-01:00:00|98=0|108=30|384=2|372=D|385=S|372=8|385=R|
384 with another number of groups; 5 next 6
35=A|49=FUND|56=BROKER|34=5|52=20121226-01:00:00|98=0|108=30|384=2|372=D|385=S|
384 with an empty text in its group; 5 28 5
35=A|49=FUND|56=BROKER|34=5|52=20121226-01:00:00|98=0|108=30|384=1|372=|385=S|
384 no number; 5 28 5
35=A|49=FUND|56=BROKER|34=5|52=20121226-01:00:00|98=0|108=30|384=x|
logon that resets; 7 30 7
35=A|49=FUND|56=BROKER|34=1|52=20121226-01:00:00|98=0|108=30|141=Y|
logon that resets, from 1; 1 next 2
35=A|49=FUND|56=BROKER|34=1|52=20121226-01:00:00|98=0|108=30|141=Y|
49 missing; 5 29 5
35=0|56=BROKER|34=5|52=20121226-01:00:00|
56 missing; 5 29 5
35=5|49=FUND|34=5|52=20121226-01:00:00|
52 missing; 5 29 5
35=0|49=FUND|56=BROKER|34=5|
52 twice; 5 29 5
35=0|49=FUND|56=BROKER|34=5|52=20121226-01:00:00|52=now|
52 not a time; 5 next 6
35=0|49=FUND|56=BROKER|34=5|52=now|
58 twice; 5 next 6
35=5|49=FUND|56=BROKER|34=5|52=20121226-01:00:00|58=a|58=b|
112 twice; 5 29 5
35=1|49=FUND|56=BROKER|34=5|52=20121226-01:00:00|112=a|112=a|
112 twice in a heartbeat; 5 next 6
35=0|49=FUND|56=BROKER|34=5|52=20121226-01:00:00|112=a|112=a|
any order; 5 next 6
35=2|16=9|7=3|52=now|34=5|56=BROKER|49=FUND|
one lost message; 5 next 6
35=2|49=FUND|56=BROKER|34=5|52=20121226-01:00:00|7=3|16=3|
last 0 with zeros in front; 5 next 6
35=2|49=FUND|56=BROKER|34=5|52=20121226-01:00:00|7=3|16=000|
first 0; 5 next 6
35=2|49=FUND|56=BROKER|34=5|52=20121226-01:00:00|7=0|16=1|
last below first by value; 5 28 5
35=2|49=FUND|56=BROKER|34=5|52=20121226-01:00:00|7=10|16=9|
first below last by value; 5 next 6
35=2|49=FUND|56=BROKER|34=5|52=20121226-01:00:00|7=09|16=10|
7 missing; 5 29 5
35=2|49=FUND|56=BROKER|34=5|52=20121226-01:00:00|16=3|
16 missing; 5 29 5
35=2|49=FUND|56=BROKER|34=5|52=20121226-01:00:00|7=3|
7 twice; 5 29 5
35=2|49=FUND|56=BROKER|34=5|52=20121226-01:00:00|7=3|7=3|16=3|
7 twice, one above the last; 5 28 5
35=2|49=FUND|56=BROKER|34=5|52=20121226-01:00:00|7=3|7=4|16=3|
16 twice, one below the first; 5 28 5
35=2|49=FUND|56=BROKER|34=5|52=20121226-01:00:00|7=3|16=0|16=2|
16 twice, one 0; 5 29 5
35=2|49=FUND|56=BROKER|34=5|52=20121226-01:00:00|7=3|16=0|16=3|
7 above 16 in another type; 5 next 6
35=D|34=5|7=4|16=3|
own type; 5 next 6
35=UF001|34=5|
a type that begins like one of the six; 5 next 6
35=AE|34=5|
lower case; 5 next 6
35=a|34=5|
the greatest tag; 5 next 6
35=D|34=5|999999999=x|
a tag of ten digits; 5 28 5
35=D|34=5|1000000000=x|
tag 0; 5 28 5
35=D|34=5|0=x|
no tag; 5 28 5
35=D|34=5|=x|
a tag with a sign; 5 28 5
35=D|34=5|-1=x|
no =; 5 28 5
35=D|34=5|58|
no = in the middle; 5 28 5
35=D|34=5|58|1=x|
two separators; 5 28 5
35=D|34=5||58=x|
no separator at the end; 5 28 5
35=D|34=5|58=x
= inside a text; 5 next 6
35=D|34=5|58==a=b=|
";
