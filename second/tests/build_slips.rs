//! Wrong programs that look right: the generated cases must tell each from 02, Q-5.
//!
//! They are one program, with a slip or without. It goes through a text of the
//! profile piece by piece, looks each word up in the table from its home on, as a
//! program over lent memory would, and counts the entries of a list from a node
//! to the last under it. Without a slip it shares none of these steps with the
//! judge, and must agree with the judge on every case.

#[macro_use]
#[path = "common/slips.rs"]
mod common;
#[path = "build_slips/lists.rs"]
mod lists;
#[path = "build_slips/look.rs"]
mod look;
#[path = "build_slips/model.rs"]
mod model;
#[path = "build_slips/query.rs"]
mod query;
#[path = "build_slips/table.rs"]
mod table;

use look::Look;
use model::Model;
use query::{fault, parted};
use second::build::call::{Building, Built};
use second::build::judge::judge;
use second::call::{MARKUP, ROOM, SIZE};
use second::gen::builds::small;
use second::gen::large_builds;
use second::xml::derive::derive;
use second::xml::node::{Outcome, LIMITS};

const CASES: u64 = 6_000;
const ENOUGH: usize = 50;

slips! {
    // What a word is.
    ReferenceNameIsAWord,
    ReferenceJoins,
    CommentParts,
    CommentsInARowPart,
    CommentWordsCounted,
    EndTagsCounted,
    EndTagsAtTheirElement,
    NameIsOneWord,
    NameIsOneWordWithoutItsDashes,
    FirstWordOfANameOnly,
    LastWordOfANameOnly,
    FirstWordOfDataOnly,
    NamesLeftOut,
    DataLeftOut,
    EmptyElementsLeftOut,
    RootLeftOut,
    NameGoesOnInData,
    DataGoesOnInAName,
    LastWordOfDataLost,
    HyphenIsALetter,
    UnderscoreIsALetter,
    DotIsALetter,
    ColonIsALetter,
    ApostropheIsALetter,
    BytesBesideLettersAreSome,
    SlashIsADigit,
    LastLetterIsNone,
    FirstLetterIsNone,
    NineIsNoDigit,
    ZeroIsNoDigit,
    DigitsAreNoLetters,
    DigitsPart,
    // Which nodes there are.
    CommentPartsTheNode,
    WhiteSpaceIsANode,
    DataWithoutAWordIsNoNode,
    // When two words are one.
    CaseKept,
    LastCapitalKept,
    FirstCapitalKept,
    BytesWithCommentsCompared,
    HashAloneCompared,
    LengthAndHashCompared,
    BeginningTaken,
    LongerWordTaken,
    FourLettersCompared,
    HomeIsTheWord,
    OnlyHomeLookedAt,
    LookedUpToTheLastSlot,
    // The hash.
    HashOfCapitals,
    HashAsItStands,
    HashWithComments,
    Fnv1,
    ProductNotReduced,
    Fnv1aOf64Bits,
    FactorOf64Bits,
    StartAtZero,
    LastLetterNotHashed,
    HashBackwards,
    SixteenBitsOfTheHash,
    FoldedHash,
    SignedHash,
    ReducedAtEachLetter,
    MaskForModulo,
    HighBitsForModulo,
    // Which slot.
    NotCyclic,
    OnFromSlotOne,
    Backwards,
    TwoOn,
    Squares,
    LowestFreeSlot,
    LaterWordTakesTheSlot,
    FromTheLastMention,
    InAlphabeticalOrder,
    NamesBeforeData,
    InOrderOfLastMention,
    OnlyAskedWords,
    // What a slot holds.
    LastMention,
    PlaceWithoutOne,
    PlaceOfTheLastLetter,
    PlaceAfterTheWord,
    PlaceAfterAComment,
    PlaceOfTheName,
    PlaceOfTheNode,
    NodeInTheSlot,
    HashInTheSlot,
    TurnInTheSlot,
    FreeSlotsStay,
    TableStays,
    // The lists.
    AskedWithItsCase,
    AskedInCapitals,
    AskedBeginningFound,
    AskedPartFound,
    AskedLongerFound,
    AskedByHash,
    AskedInData,
    AskedInNames,
    NodeTwice,
    AtTheParent,
    DataAtItsElement,
    FirstNodeOnly,
    LastNodeLeftOut,
    Decreasing,
    PlacesListed,
    InOrderOfAppearance,
    InAlphabeticalLists,
    SameWordOnce,
    LengthsForEnds,
    StartsForEnds,
    EndsFromOne,
    // The counts.
    OnlyTheRoot,
    WithoutItself,
    OnlyItself,
    ItselfAndItsChildren,
    OneAtMost,
    MentionsCounted,
    NodeByNode,
    AddedToWhatWasLent,
    RootTwice,
    AllBehindIt,
    // The tree and later entries.
    RowsStay,
    TagsStay,
    PlacesStay,
    NameWithoutCaseIsOneTag,
    WorkStays,
    OneRowOfWorkCleared,
    AllWorkCleared,
    LaterRowsCleared,
    LaterEndsCleared,
    LaterOccurrencesCleared,
    LaterCountsCleared,
    // ROOM.
    RoomWithNodes,
    RoomWithWords,
    RoomLeavesTheTable,
    RoomLeavesWordsInTheTable,
    RoomLeavesTheLastSlot,
    RoomWritesRows,
    RoomWritesLists,
    RoomClearsWork,
    RoomBeforeMarkup,
    RoomBeforeSize,
    SlotForEachNode,
    SlotForEachMention,
    SlotLeftFree,
    SlotAtLeast,
    WordsBeyondTheSlotsDropped,
    ParentsNotAsked,
    TagsNotAsked,
    FirstsNotAsked,
    LastsNotAsked,
    EndsNotAsked,
    OccurrencesNotAsked,
    CountsNotAsked,
    WorkNotAsked,
    TwoRowsOfWork,
    WorkAsForASearch,
    CountsOfOneWord,
    OccurrencesOfEachNode,
    OneMoreEndAsked,
    OneMoreOccurrenceAsked,
    OneMoreCountAsked,
    // SIZE, MARKUP, TREE.
    NineWordsTaken,
    ManyWordsTaken,
    EightWordsRefused,
    NoWordTaken,
    EmptyWordTaken,
    LastEmptyWordTaken,
    AnyByteTaken,
    HyphenTaken,
    UnderscoreTaken,
    HighLetterTaken,
    CapitalRefused,
    DigitRefused,
    FirstWordAskedOnly,
    LastEndShortTaken,
    FallingEndsTaken,
    UnknownWordRefused,
    SameWordRefused,
    TextBeforeTheQuery,
    SizeClearsTheTable,
    MarkupClearsTheTable,
    TreeClearsTheTable,
    AcceptedWithWords,
    AcceptedWithOccurrences,
    AcceptedWithZero,
    // Told by large cases alone.
    Bytes16777217,
    Bytes16777216Refused,
    PlacesOfSixteenBits,
    SlotsOfSixteenBits,
    LettersOfSixteenBits,
}

use Slip::*;

/// Slips that only a large case can tell.
const LARGE: &[Slip] = &[
    Bytes16777217,
    Bytes16777216Refused,
    PlacesOfSixteenBits,
    SlotsOfSixteenBits,
    LettersOfSixteenBits,
];

/// Whether a slip is about the words or the nodes of a text.
fn of_the_text(slip: Slip) -> bool {
    (slip as usize) < CaseKept as usize
}

/// A case as all programs see it.
struct Case<'a> {
    call: &'a Building,
    words: Vec<Vec<u8>>,
    outcome: Outcome,
    /// The look at the text without a slip, where it is one of the profile.
    look: Option<Look<'a>>,
}

impl<'a> Case<'a> {
    fn new(call: &'a Building) -> Case<'a> {
        let outcome = derive(&call.text, LIMITS);
        let whole = matches!(outcome, Outcome::Whole(_));
        Case {
            call,
            words: parted(call),
            outcome,
            look: whole.then(|| Look::of(&call.text, None)),
        }
    }

    /// Whether some slice is shorter than a text of two nodes needs, which can be
    /// told before the text is looked at.
    fn short(&self) -> bool {
        let (call, k) = (self.call, self.words.len());
        call.ends.len() < k || call.work.len() < 6 || call.counts.len() < 2 * k || call.parents.len() < 2
    }

    /// What the program makes of the case.
    fn built(&self, slip: Option<Slip>) -> Built {
        let call = self.call;
        let found = fault(call, &self.words, &self.outcome, slip);
        let early = match found {
            Some((SIZE, _)) => slip == Some(RoomBeforeSize),
            Some(_) => slip == Some(RoomBeforeMarkup),
            None => false,
        };
        if early && self.short() {
            let mut after = call.untouched(ROOM, 0, 0);
            after.slots.fill(0);
            return after;
        }
        if let Some((refusal, place)) = found {
            let mut after = call.untouched(refusal, place as u32, 0);
            let clears = match refusal {
                SIZE => slip == Some(SizeClearsTheTable),
                MARKUP => slip == Some(MarkupClearsTheTable),
                _ => slip == Some(TreeClearsTheTable),
            };
            if clears {
                after.slots.fill(0);
            }
            return after;
        }
        let other = slip.filter(|&slip| of_the_text(slip));
        let other = other.map(|slip| Look::of(&call.text, Some(slip)));
        let look = other
            .as_ref()
            .or(self.look.as_ref())
            .expect("a text of the profile");
        Model::new(call, slip, look, self.words.clone()).build()
    }
}

#[test]
fn the_program_without_a_slip_agrees() {
    for number in 0..20_000 {
        let call = small(3, number).building;
        assert_eq!(Case::new(&call).built(None), judge(&call), "case {number}");
    }
}

#[test]
fn slips_are_told_apart() {
    let small_ones = ALL.iter().filter(|slip| !LARGE.contains(slip));
    let mut told: Vec<(Slip, usize)> = small_ones.map(|&slip| (slip, 0)).collect();
    for number in 0..CASES {
        let call = small(1, number).building;
        let right = judge(&call);
        let case = Case::new(&call);
        for (slip, cases) in &mut told {
            *cases += usize::from(case.built(Some(*slip)) != right);
        }
    }
    told.iter()
        .for_each(|(slip, cases)| println!("{slip:?}: {cases}"));
    for (slip, cases) in told {
        assert!(cases >= ENOUGH, "{slip:?}: told apart by {cases} cases only");
    }
}

/// On the large cases the program without a slip agrees, and each slip of limits
/// is told by some.
#[test]
fn slips_of_limits_are_told_apart() {
    let mut left = LARGE.to_vec();
    for number in 0..large_builds::how_many() {
        let (call, kind) = large_builds::large(1, number);
        let right = judge(&call);
        let case = Case::new(&call);
        assert!(case.built(None) == right, "{kind:?}");
        left.retain(|&slip| case.built(Some(slip)) == right);
    }
    assert!(left.is_empty(), "not told apart: {left:?}");
}
