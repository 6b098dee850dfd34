#!/usr/bin/env python3
"""The texts of schedules/ as files of tests_confer, which can read no file: --write writes them. Without it, says whether the files are up to
date, and runs the built program on each script, if it was built."""
import os
import subprocess
import sys

TOP = os.path.join(os.path.dirname(os.path.abspath(__file__)), "..")
COPY = os.path.join(TOP, "crates/tests_confer/src")
PROGRAM = os.path.join(TOP, "crates/confer/out/confer")
# Each schedule in a file with those of its theme: the module of the file, what it is about, and its schedules.
THEMES = [
    (
        "order",
        "What waits for what",
        ["a_burst_overtakes_the_one_that_it_answers", "an_answer_overtakes_its_question", "five_members_in_a_ring", "two_answer_at_once", "two_casts_come_reversed"],
    ),
    (
        "repair",
        "What is lost, repeated or late, and how it is repaired",
        ["a_burst_is_lost_and_given_whole", "a_frame_comes_again", "a_loss_and_its_repair", "a_request_comes_late", "a_third_member_hands_on_what_is_lost", "all_is_lost_and_two_rounds_repair_it"],
    ),
    (
        "limits",
        "What is refused: full windows, full histories, members and frames that there are not",
        ["names_that_do_not_exist", "one_member_only_listens", "the_history_is_full", "the_window_fills_and_opens"],
    ),
    ("screens", "What stands on screens", ["a_screen_scrolls", "no_screen_shows_it_too_early", "three_screens_agree", "two_rooms"]),
]
COPIED = "copied by `checks/schedules.py --write`. Change them there."
HEAD = f'''//! The texts of the folder `schedules/`, {COPIED}

''' + "".join(f"mod {module};\n" for module, _, _ in sorted(THEMES)) + '''
/// A script, and what `confer play` prints of it.
pub struct Schedule {
    pub script: &'static str,
    pub text: &'static str,
}

'''


def text(name):
    with open(os.path.join(TOP, "schedules", name), encoding="ascii", newline="") as it:
        return it.read()


def row(name):
    fields = f'    script: r#"{text(name + ".script")}"#,\n    text: r#"{text(name + ".out")}"#,\n'
    return f"const {name.upper()}: Schedule = Schedule {{\n{fields}}};\n"


def theme_of(about, names):
    first = f"//! {about}.\n//!\n//! Texts of the folder `schedules/`, {COPIED}\n\nuse crate::schedules::Schedule;\n"
    listed = "".join(f"    {it.upper()},\n" for it in names)
    last = f"const ALL: &[Schedule] = &[\n{listed}];\n"
    call = "/// A function, since a constant would be looked through in the proof of the loop.\npub fn schedules() -> &'static [Schedule] {\n    ALL\n}\n"
    return "\n".join([first, *map(row, names), last, call])


def copies():
    """each file of the tests, with what is to stand in it"""
    calls = "".join(f"        {module}::schedules(),\n" for module, _, _ in THEMES)
    parts = f"/// All schedules, by their themes.\npub fn parts() -> [&'static [Schedule]; {len(THEMES)}] {{\n    [\n{calls}    ]\n}}\n"
    made = {os.path.join(COPY, "schedules.rt"): HEAD + parts}
    for module, about, names in THEMES:
        made[os.path.join(COPY, "schedules", f"{module}.rt")] = theme_of(about, names)
    return made


def stands(path, wanted):
    if not os.path.exists(path):
        return False
    with open(path, encoding="ascii") as it:
        return it.read() == wanted


def main():
    names = sorted(it.removesuffix(".script") for it in os.listdir(os.path.join(TOP, "schedules")) if it.endswith(".script"))
    if names != sorted(it for _, _, theme in THEMES for it in theme):
        print("each schedule is to have one theme")
        return 1
    if "--write" in sys.argv:
        os.makedirs(os.path.join(COPY, "schedules"), exist_ok=True)
        for path, wanted in copies().items():
            with open(path, "w", encoding="ascii") as it:
                it.write(wanted)
        return 0
    for path, wanted in copies().items():
        if not stands(path, wanted):
            print(f"{os.path.relpath(path, TOP)} is not what --write would write")
            return 1
    if not os.path.exists(PROGRAM):
        print(f"{len(names)} schedules are those of the tests; the program is not built")
        return 0
    for name in names:
        ran = subprocess.run([PROGRAM, "play"], input=text(name + ".script").encode(), capture_output=True)
        if ran.returncode or ran.stderr or ran.stdout != text(name + ".out").encode():
            print(f"{name}: the program prints another text")
            return 1
    print(f"{len(names)} schedules are those of the tests, and the program prints what they say")
    return 0


sys.exit(main())
