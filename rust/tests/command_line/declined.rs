//! A call of a list that is declined tells its refusal's number and, of the things that the refusal may mean, which it was.

use dovebolt::Refusal;

use crate::program::{replay, replay_json};

/// The calls before it, the call, its refusal, and what is told. The sample menu has 3 animations, 29 tracks, 12 panes and 3
/// materials; track 0 is of animation 0; of animation 1, track 12 is Hermite with 3 keys and track 16 is Step.
const CASES: [(&str, &str, Refusal, &str); 27] = {
    use Refusal::*;
    [
        (
            "",
            "play 3",
            Animation,
            "no such animation: the sheet has 3",
        ),
        (
            "",
            "next 3",
            Animation,
            "no such animation: the sheet has 3",
        ),
        ("", "key 12 1 0 0", Animation, "nothing is active"),
        ("", "open 12 1", Animation, "nothing is active"),
        (
            "play 1",
            "key 29 0 0 0",
            NoSuch,
            "no such track: the sheet has 29",
        ),
        (
            "play 1",
            "key 0 0 0 0",
            NoSuch,
            "track 0 is of animation 0, and 1 is active",
        ),
        (
            "play 1",
            "slope 0 0 0",
            NoSuch,
            "track 0 is of animation 0, and 1 is active",
        ),
        ("play 1", "open 12 3", NoSuch, "no such key: track 12 has 3"),
        (
            "",
            "read pane 12 0",
            NoSuch,
            "no such pane: the book has 12",
        ),
        (
            "",
            "read pane 0 28",
            NoSuch,
            "no such channel: a pane has 28",
        ),
        (
            "",
            "resolve pane 12",
            NoSuch,
            "no such pane: the book has 12",
        ),
        (
            "",
            "read material 3 0",
            NoSuch,
            "no such material: the book has 3",
        ),
        (
            "",
            "read material 0 30",
            NoSuch,
            "no such channel: a material has 30",
        ),
        (
            "",
            "resolve srt 3 0",
            NoSuch,
            "no such material: the book has 3",
        ),
        (
            "",
            "resolve srt 0 3",
            NoSuch,
            "no such layer: a material has 3",
        ),
        ("", "name 3 0", NoSuch, "no such material: the book has 3"),
        (
            "",
            "pose 0 0x7F800000",
            NotFinite,
            "the frame is not finite",
        ),
        (
            "play 1",
            "key 12 1 0x7FC00000 0",
            NotFinite,
            "the frame is not finite",
        ),
        (
            "play 1",
            "key 12 1 0 0xFF800000",
            NotFinite,
            "the value is not finite",
        ),
        (
            "play 1",
            "slope 12 1 0x7FC00000",
            NotFinite,
            "the slope is not finite",
        ),
        (
            "play 1",
            "slope 16 0 1",
            NotHermite,
            "the curve is not Hermite",
        ),
        ("", "undo", NothingToReturn, "nothing to undo"),
        ("", "redo", NothingToReturn, "nothing to redo"),
        ("", "drop", DragState, "no drag is open"),
        ("", "abandon", DragState, "no drag is open"),
        ("play 1\nopen 12 1", "undo", DragState, "a drag is open"),
        (
            "play 1\nopen 12 1",
            "key 12 1 0 0",
            DragState,
            "a drag is open",
        ),
    ]
};

#[test]
fn by_what_it_was() {
    for (before, call, refusal, words) in CASES {
        let calls = format!("{before}\n{call}\nplay 0\n");
        let number = refusal.number();
        let (text, objects) = (replay(&calls), replay_json(&calls));
        assert_eq!((text.status, objects.status), (1, 1), "{call}");
        let declined = format!(" {call}: declined {number}: {words}");
        let lines = text.lines();
        let told = lines[lines.len() - 2];
        assert!(told.ends_with(&declined), "{told} isn't {declined}");
        let objects = objects.objects();
        let object = &objects[objects.len() - 2];
        assert_eq!(object.text("answer"), "declined", "{object:?}");
        assert_eq!(object.count("refusal"), number.into(), "{object:?}");
        assert!(!object.text("words").is_empty(), "{object:?}");
        // The list goes on.
        assert!(lines[lines.len() - 1].ends_with(" play 0: ok"));
    }
}
