//! Words that no command knows, and words that are missing.

use crate::support::hall;

const LAMP: &str = "halls/repeater-lock.hall";

#[test]
fn a_sentence_says_what_to_do() {
    for (words, sentence) in [
        (&["chekc", "a"][..], "there is no command `chekc`: did you mean `hall check`?"),
        (&["fly"], "there is no command `fly`: the nearest is `hall new`, and `hall --help` lists all."),
        (&["help", "rnu"], "there is no command `rnu`: did you mean `hall run`?"),
        (&["run"], "no hall is named: give a file, or - for standard input."),
        (&["run", LAMP, "other"], "other is one word too many: give one name."),
        (&["run", LAMP, "--tiks", "3"], "--tiks is not an option of `hall run`: did you mean --ticks?"),
        (&["run", LAMP, "--fast"], "--fast is not an option of `hall run`: see `hall run --help`."),
        (&["new", "--fast"], "--fast is not an option of `hall new`, which has none."),
        (&["run", LAMP, "--ticks"], "--ticks has no value: give --ticks N."),
        (&["csv", LAMP, "-o", "--ticks=5"], "-o has no value: give -o FILE."),
        (&["run", "--ticks", "--switch", "1:0,1,0=on", LAMP], "--ticks has no value: give --ticks N."),
        (&["run", LAMP, "--ticks", "x"], "--ticks: found \"x\", expected a whole number from 0 to 10000."),
        (&["run", LAMP, "--ticks=3", "--ticks=4"], "--ticks is given twice: give it once."),
        (
            &["levels", LAMP, "--tick", "-1"],
            "--tick: found \"-1\", expected a whole number from 0 to 1000000.",
        ),
        (&["check"], "no file is named: give some, or - for standard input."),
        (&["check", "-", "-"], "standard input is named twice: it can be read once."),
        (&["stream"], "no file is named: give some, or - for standard input."),
        (&["stream", "-", LAMP, "-"], "standard input is named twice: it can be read once."),
        (&["merge"], "no file is named: give two, of which one may be - for standard input."),
        (&["merge", LAMP], "one file alone is named: give a second one after it."),
        (
            &["merge", LAMP, LAMP, LAMP],
            "halls/repeater-lock.hall is one word too many: give two names, and no third.",
        ),
        (&["merge", LAMP, LAMP, "1,0"], "1,0 is one word too many: give two names, and no third."),
        (&["merge", LAMP, LAMP, "1,0,0"], "1,0,0 is one word too many: did you mean --by 1,0,0?"),
        (&["merge", LAMP, LAMP, "--", "-1,0,0"], "-1,0,0 is one word too many: did you mean --by -1,0,0?"),
        (&["merge", "-", "-"], "standard input is named twice: it can be read once."),
        (&["merge", LAMP, LAMP, "-1,0,0"], "-1,0,0 is one word too many: did you mean --by -1,0,0?"),
        (&["merge", LAMP, LAMP, "-1,0"], "-1,0 is one word too many: give two names, and no third."),
        (&["run", LAMP, "-1,0,0"], "-1,0,0 is one word too many: give one name."),
        (&["run", LAMP, "-x,0,0"], "-x,0,0 is not an option of `hall run`: see `hall run --help`."),
        (&["merge", LAMP, LAMP, "--by"], "--by has no value: give --by dx,dy,dz."),
        (&["merge", LAMP, LAMP, "--by", "--profile", "x"], "--by has no value: give --by dx,dy,dz."),
        (&["merge", LAMP, LAMP, "--by=1,0,0", "--by=1,0,0"], "--by is given twice: give it once."),
        (&["merge", LAMP, LAMP, "--by", "1,2"], "--by 1,2: found \"1,2\", expected an offset dx,dy,dz."),
        (
            &["merge", LAMP, LAMP, "--by", "1,2,east"],
            "--by 1,2,east: found \"east\", expected a whole number from -2000000 to 2000000.",
        ),
        (
            &["merge", LAMP, LAMP, "--by", "1,3000000000,0"],
            "--by 1,3000000000,0: found \"3000000000\", expected a whole number from -2000000 to 2000000.",
        ),
        (
            &["merge", LAMP, LAMP, "--by", "0,2000001,0"],
            "--by 0,2000001,0: refusal 11, off ground: the offset's dy is 2000001; it may be from -2000000 to 2000000.",
        ),
        (
            &["merge", LAMP, "halls/slab-rise.hall", "-o", LAMP, "--by", "0,9,0"],
            "halls/repeater-lock.hall is the hall itself: name another file after -o, or it would be lost.",
        ),
        (
            &["merge", "halls/slab-rise.hall", LAMP, "-o", LAMP, "--by", "0,9,0"],
            "halls/repeater-lock.hall is the hall itself: name another file after -o, or it would be lost.",
        ),
        (
            &["merge", LAMP, "halls/slab-rise", "--by", "0,9,0"],
            "halls/slab-rise: there is no such file: did you mean halls/slab-rise.hall?",
        ),
        (&["feeder", LAMP, "1,1,0"], "there is no command `feeder`: did you mean `hall feeders`?"),
        (&["feeders"], "no hall is named: give a file, or - for standard input, and then a position x,y,z."),
        (&["feeders", LAMP], "no position is given: give one as x,y,z after the file."),
        (&["feeders", "-"], "no position is given: give one as x,y,z after the file."),
        (
            &["feeders", "1,1,0"],
            "no hall is named: give a file, or - for standard input, before the position.",
        ),
        (
            &["feeders", "-1,1,0"],
            "no hall is named: give a file, or - for standard input, before the position.",
        ),
        (
            &["feeders", LAMP, "1", "1", "0"],
            "1 is one word too many: give one file, and one position x,y,z without blanks.",
        ),
        (
            &["feeders", LAMP, "1,1,0", "-2,1,0"],
            "-2,1,0 is one word too many: give one file, and one position x,y,z without blanks.",
        ),
        (
            &["feeders", "1,1,0", LAMP],
            "the file comes first, and then the position: give halls/repeater-lock.hall 1,1,0.",
        ),
        (&["feeders", "-1,1,0", "-"], "the file comes first, and then the position: give - -1,1,0."),
        (
            &["feeders", LAMP, LAMP],
            "position halls/repeater-lock.hall: found \"halls/repeater-lock.hall\", expected a position x,y,z.",
        ),
        (&["feeders", LAMP, "1,1"], "position 1,1: found \"1,1\", expected a position x,y,z."),
        (&["feeders", LAMP, "-1,1"], "position -1,1: found \"-1,1\", expected a position x,y,z."),
        (&["feeders", LAMP, "-"], "position -: found \"-\", expected a position x,y,z."),
        (
            &["feeders", LAMP, "1,1,east"],
            "position 1,1,east: found \"east\", expected a whole number from -1000000 to 1000000.",
        ),
        (
            &["feeders", LAMP, "-1000001,1,0"],
            "position -1000001,1,0: found \"-1000001\", expected a whole number from -1000000 to 1000000.",
        ),
        (
            &["feeders", "1,1,0", "1,1,0"],
            "1,1,0: there is no such file: look at its name, or begin one with `hall new`.",
        ),
        (
            &["feeders", LAMP, "1,1,0", "--tick", "3"],
            "--tick is not an option of `hall feeders`: see `hall feeders --help`.",
        ),
        (
            &["feeders", "halls/repeater-lock", "1,1,0"],
            "halls/repeater-lock: there is no such file: did you mean halls/repeater-lock.hall?",
        ),
        (
            &["feeders", LAMP, "1,1,0", "--profile", "none.bin"],
            "none.bin: there is no such file: look at its name, or begin one with `hall new`.",
        ),
        (&["clera", LAMP], "there is no command `clera`: did you mean `hall clear`?"),
        (&["clear"], "no hall is named: give a file, or - for standard input."),
        (
            &["clear", LAMP, "cleared.hall"],
            "cleared.hall is one word too many: did you mean -o cleared.hall?",
        ),
        (&["clear", LAMP, "a.hall", "-o", "b.hall"], "a.hall is one word too many: give one name."),
        (&["pack", LAMP, "lock.bin"], "lock.bin is one word too many: did you mean -o lock.bin?"),
        (&["new", "door", "gate"], "gate is one word too many: give one name."),
        (&["clear", LAMP, "-o"], "-o has no value: give -o FILE."),
        (&["clear", LAMP, "-o", "a.hall", "-o", "b.hall"], "-o is given twice: give it once."),
        (
            &["clear", LAMP, "--ticks", "3"],
            "--ticks is not an option of `hall clear`: see `hall clear --help`.",
        ),
        (
            &["clear", LAMP, "-o", LAMP],
            "halls/repeater-lock.hall is the hall itself: name another file after -o, or it would be lost.",
        ),
        (
            &["clear", LAMP, "-o", "halls/none/a.hall"],
            "halls/none/a.hall could not be written: there is no such folder.",
        ),
        (
            &["clear", "halls/repeater-lock"],
            "halls/repeater-lock: there is no such file: did you mean halls/repeater-lock.hall?",
        ),
        (
            &["stream", "halls/slab-rise.hall", LAMP, "-o", LAMP],
            "halls/repeater-lock.hall is the hall itself: name another file after -o, or it would be lost.",
        ),
        (
            &["run", LAMP, "--switch", "4"],
            "--switch 4: found \"4\", expected a switch TICK:x,y,z=on or TICK:x,y,z=off.",
        ),
        (
            &["run", LAMP, "--switch", "4:0,1,0=onn"],
            "--switch 4:0,1,0=onn: found \"onn\", expected a setting: did you mean on?",
        ),
        (
            &["run", LAMP, "--switch", "4:3,1,0=on"],
            "--switch 4:3,1,0=on: found \"3,1,0\", expected the position of a lever, button or plate: a lamp stands \
             there.",
        ),
        (
            &["run", LAMP, "--switch", "4:9,9,9=on"],
            "--switch 4:9,9,9=on: found \"9,9,9\", expected the position of a lever, button or plate: no row stands \
             there.",
        ),
        (
            &["report", LAMP, "-o", LAMP],
            "halls/repeater-lock.hall is the hall itself: name another file after -o, or it would be lost.",
        ),
        (
            &["pack", LAMP, "-o", "halls/none/a.bin"],
            "halls/none/a.bin could not be written: there is no such folder.",
        ),
        (&["pack", LAMP, "-o", "halls"], "halls could not be written: it is a folder, so name a file in it."),
        (&["new", "halls/none/a"], "halls/none/a.hall could not be written: there is no such folder."),
        (&["new", ".."], "\"..\" is no name for a file: give one, as in `hall new door`."),
        (&["new", "halls/"], "\"halls/\" is no name for a file: give one, as in `hall new door`."),
        (&["new", ""], "\"\" is no name for a file: give one, as in `hall new door`."),
        (&["new"], "no name is given: give one, as in `hall new door`."),
        (
            &["run", "halls/repeater-lock"],
            "halls/repeater-lock: there is no such file: did you mean halls/repeater-lock.hall?",
        ),
        (
            &["run", "--", "--ticks"],
            "--ticks: there is no such file: look at its name, or begin one with `hall new`.",
        ),
        (
            &["run", "--", "--help"],
            "--help: there is no such file: look at its name, or begin one with `hall new`.",
        ),
    ] {
        let done = hall(words);
        assert_eq!((done.status, done.text()), (Some(2), ""), "{words:?}");
        assert_eq!(done.err, format!("hall: {sentence}\n"), "{words:?}");
    }
}

#[test]
fn help_is_given_wherever_it_is_asked_for() {
    let all = hall(&["--help"]);
    assert_eq!(all.status, Some(0));
    for words in [&[][..], &["-h"], &["help"]] {
        assert_eq!(hall(words).out, all.out, "{words:?}");
    }
    let run = hall(&["run", "--help"]);
    for words in [&["help", "run"][..], &["run", "-h"], &["run", "none", "--fast", "--help"]] {
        assert_eq!(hall(words).out, run.out, "{words:?}");
    }
}

#[test]
fn options_may_stand_anywhere_and_with_an_equals_sign() {
    let one = hall(&["run", LAMP, "--ticks", "5", "--switch", "1:2,1,2=on"]);
    assert_eq!(one.status, Some(0));
    assert!(one.text().contains("tick 1: lever 2,1,2 is switched on\n"));
    assert_eq!(hall(&["run", "--switch=1:2,1,2=on", "--ticks=5", LAMP]).out, one.out);
}

/// Of a switch after the last tick it is said that it is not shown.
#[test]
fn a_switch_past_the_last_tick_is_told() {
    let done = hall(&["run", LAMP, "--ticks", "6"]);
    let text = done.text();
    assert!(text.contains("From tick 5 on nothing changes, until the switch at tick 7.\n"), "{text}");
    assert!(text.contains("Not shown: tick 7 switch 0,1,0 off; ask for more with --ticks.\n"), "{text}");
}
