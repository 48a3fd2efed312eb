// The paper with one fault each: the comparison must catch every one, or its cases are too tame.

use crate::build::{self, ordered, Build, Fields};
use crate::paper::{self, Child, Measures, Paper, COATED, PAPER, PLAIN};
use crate::system::*;

macro_rules! faults {
    ($($list:ident { $($fault:ident),* $(,)? })*) => {
        #[derive(Clone, Copy, PartialEq, Debug)]
        pub enum Fault {
            // The paper itself, to see that only faults are caught.
            Nothing,
            $($($fault),*),*
        }
        $(pub const $list: &[Fault] = &[$(Fault::$fault),*];)*
    };
}

// The random families catch the first list, the calls past the first mebibyte the second.
faults! {
FAULTS {
    // Index, Stack at, Turn, Begin.
    IndexSkipsUnusedPlaces, CoatsFromTheBottom, TurnOnePlain, TurnKeepsCoats, TurnOrderOf3And4,
    BeginTakesRoom15, BeginTakes65Segments, BeginTakesOddSize, BeginOrderOf5And6, BeginTakesTurn1OfPlain, BeginTakesSizeAboveN,
    BeginTakesHighBits, BeginTakesEmptySet, BeginRefusesSetOfPlain1, BeginOrderOf3And21, BeginOrderOf21And5, BeginForgetsSet,
    BeginGivesFullSet, BeginGivesReverse, BeginLoads0, BeginRefusedLoads0,
    // Coherence.
    LoosePhase, LooseCounts, LooseLateCounts, LooseLevel, LooseDeepest, LoosePassed, LooseWaiting, LooseBeyondG, LooseWanted, LooseRoom,
    LooseSet, LooseWay, LooseLoaded, LooseNoSegment, LooseSweptB, LooseSweptJ, StrictCounts, StrictLevel, StrictDeepest, StrictSet, StrictWay,
    StrictLoaded, StrictSwept, StrictSweptUnloaded,
    // Blank.
    BlankSparesZero, BlankForgetsWanted, BlankTwice, BlankRefusesPartly, BlankPassesSize, BlankDropsSet, BlankNotReverse,
    // Expand.
    ExpandWaitsEarly, ExpandWaitsLate, ExpandCountsOwnChildren, ExpandNamesHighest, ExpandLogsHalf, ExpandPassesWaiting,
    ExpandFromTheFirst, ExpandFallingTurns, ExpandOfLevelD, ExpandCountsLogged, ExpandMarksSeen, ExpandSpares,
    ExpandTakesPassed, ExpandByEveryTurn, ExpandSkipsLargest, ExpandByNextSizes, ExpandLabelsTo31, ExpandCountsTo31, ExpandDropsSet,
    ExpandTakesReverse,
    OrderOf7And8, OrderOf8And9, OrderOf10And11,
    // Settle and Look.
    SettleMarksSeen, SettleCountsNothing, SettleMarksNothing, SettleKeepsWaiting, SettleTakesSpares, SettleLooksPastWaiting,
    SettleMarksThenRefuses, SettleLabelsTo31, SettleCountsTo31, SettleDropsSet, SettleTakesReverse, LookNotWhileBlanking, LookNotReverse,
    LookFromWaiting,
    // Close.
    CloseWithLogWaiting, CloseUnpassed, CloseKeepsPassed, CloseDeepestD, CloseAddsCount0, CloseByZero, CloseTakesLevel255,
    CloseStopsAtLevel31, CloseStopsAtLevel254, CloseFinishesAtLevel255, CloseOrderOf13And14, CloseDropsSet,
    // Its ways: what a reverse level asks for, the way that is told, and what each Close clears.
    CloseUnswept, CloseAsksLoadedOnly, CloseAsksEitherOrder, CloseAsksPassedReverse, CloseAsksWaitingReverse, CloseAsksPairsForward,
    CloseAsksPairsBlanking, CloseRefusesWay2, CloseTakesWay1Only, CloseGivesWay2, CloseKeepsWay, CloseKeepsWayAtEnd, CloseForwardAtEnd,
    CloseKeepsLoaded, CloseKeepsSwept, CloseClearsReverseOnly, CloseKeepsPassedReverse, CloseClearsWaitingReverse,
    // Load.
    LoadTakesForward, LoadTakesBlanking, LoadTakesFinished, LoadRefusesAgain, LoadRefusesSwept, LoadOrderOf8And10, LoadTakesLongList,
    LoadTakesListOf0, LoadWritesRefused, LoadOfLevelD, LoadOfLevelBefore, LoadOfLevelsTo31, LoadSetsSpares, LoadTakesSpares, LoadKeepsBits,
    LoadHighBitFirst, LoadForgetsSegment, LoadClearsPairs, LoadNotesPair, LoadDropsSet,
    // Sweep.
    SweepTakesForward, SweepTakesBlanking, SweepTakesFinished, SweepTakesUnloaded, SweepTakesSwept, SweepAsksOtherOrder, SweepOrderOf8And22,
    SweepOrderOf9And22, SweepOrderOf22And10, SweepOrderOf10And11, SweepTakesLongList, SweepTakesListOfJ, SweepRefusesSpareBits,
    SweepMarksRefused, SweepMarksSeen, SweepMarksSpares, SweepMarksUnlessSet, SweepMarksByTwo, SweepMarksFirstOnly, SweepMarksOnFresh,
    SweepLooksInJ, SweepLooksInAll, SweepLooksInNext, SweepLooksAtBitBefore, SweepHighBitFirst, SweepLabelsBefore, SweepLabelsTo31,
    SweepCountsTo31, SweepCountsTwice, SweepCountsBits, SweepCountsNothing, SweepByEveryTurn, SweepSkipsLargest, SweepByNextSizes,
    SweepNotesNothing, SweepNotesOtherOrder, SweepNotesBothOrders, SweepNotesAll, SweepUnloads, SweepDropsSet,
    // Read and Plan.
    ReadBitsReversed, ReadOrderOf10And4, ReadTakesLongTable, PlanTakesSmallest, PlanTakesLargestOfSet, PlanEndsAtZero, PlanTakes30Only,
    PlanTakes253Only, PlanTakes255, PlanWritesRefused, PlanClearsRest, PlanSkipsWantedEntry, PlanOrderOf3And10, PlanTakesShortList,
    PlanTakesListOf30,
    // Its set, and the given stack's own 3.
    PlanTakesTurn1OfPlain, PlanTakesSizeAboveN, PlanTakesHighBits, PlanTakesEmptySet, PlanRefusesSetOfPlain1, PlanOrderOf3And21,
    PlanOrderOf21And10, PlanByEveryTurn, PlanSkipsLargest, PlanByNextSizes, PlanOrderOf10And20, PlanOrderOf20And15, PlanGives15ForUnseen,
    PlanGives20ForLost, PlanTakesWantedUnseen,
    // Price: its tariff.
    PriceTakes13Lines, PriceTakesLowByteOfCount, PriceLooksPastCount, PriceTakesFirst0, PriceTakesLastBeforeFirst,
    PriceTakesLastPastN, PriceTakesHigherPrice, PriceSkipsSize1, PriceSkipsSize1OfPlain, PriceSkipsSizeN, PriceTakesSizeWithoutLine,
    PriceTakesFirstLineOfTwo, PriceTakesTwoLinesOfSizeN, PriceOrderOf10And17, PriceOrderOf15And17, PriceOrderOf20And17,
    PriceOrderOf17And18, PriceOrderOf18And19, PriceLooksAtTariffFirst, PriceLooksLineByLine, PriceLooksSizeBySize, PriceAsksLinesOfSet,
    PriceTakesTwoLinesBesideSet,
    // Its set, its list, and the given stack's own 3.
    PriceTakesTurn1OfPlain, PriceTakesSizeAboveN, PriceTakesHighBits, PriceTakesEmptySet, PriceRefusesSetOfPlain1, PriceOrderOf3And21,
    PriceOrderOf21And10, PriceByEveryTurn, PriceSkipsLargest, PriceByNextSizes, PriceOrderOf10And20, PriceOrderOf20And15,
    PriceGives15ForUnseen, PriceGives20ForLost, PriceTakesWantedUnseen, PriceTakesListOf30, PriceTakesSmallest, PriceTakesLargestOfSet,
    // Its sum, its rounding, and what it leaves.
    PriceOfFirstTurn, PriceOfFirst30, PriceForgetsTurn254, PriceOfSizeBelow, PriceOfEachSizeOnce, PriceSumsIn16Bits, PriceSumsIn24Bits,
    PriceSumsIn27Bits, PricePenniesIn16Bits, PriceRoundsEachTurn, PriceRoundsDown, PriceRoundsUp, PriceRoundsHalvesDown,
    PriceRoundsHalvesToEven, PriceWritesRefused, PriceKeepsList, PriceClearsRest, PriceRefusedWithTurns, PriceRefusedWithPennies,
    // Build the whole table.
    BuildTakesLongTable, BuildTakesLongLog, BuildOrderOf6And10, BuildRefusedWithJob, BuildAnswersBegun, BuildKeepsTable,
    BuildWritesRefused, BuildDeepestD, BuildTakesTurn1OfPlain, BuildTakesSizeAboveN, BuildTakesHighBits, BuildTakesEmptySet,
    BuildRefusesSetOfPlain1, BuildOrderOf3And21, BuildOrderOf21And5, BuildByEveryTurn, BuildSkipsLargest, BuildByNextSizes, BuildForgetsSet,
    BuildGivesFullSet,
    // Its list and its ways.
    BuildTakesLongList, BuildTakesListOfLast, BuildKeepsList, BuildClearsList, BuildRefusedLoads0, BuildForwardOnly, BuildReverseOnly,
    BuildReverseWhereFewer, BuildForgetsSegments,
}
FAR_FAULTS {
    BlankStopsAtMebibyte, ExpandWrapsAtMebibyte, SettleWrapsAtMebibyte, LoadStopsAtMebibyte, SweepStopsAtMebibyte, SweepWrapsAtMebibyte,
    ReadWrapsAtMebibyte, PlanStopsAtMebibyte, PriceStopsAtMebibyte,
}
}

const MEBIBYTE: usize = 1 << 20;

// An entry of the first mebibyte, whatever the entry meant.
fn wrapped(i: u64) -> u64 {
    i % (4 * MEBIBYTE as u64)
}

pub struct Faulty(pub Fault);

// The faults that an operation may have with its set.
struct SetFaults {
    turn_1: Fault,
    above_n: Fault,
    high_bits: Fault,
    empty: Fault,
    plain_1: Fault,
    order_3_21: Fault,
    // By every turn, without the largest, by the sizes one above; none where it makes no turn.
    turns: Option<[Fault; 3]>,
}

const BEGIN: SetFaults = SetFaults {
    turn_1: Fault::BeginTakesTurn1OfPlain,
    above_n: Fault::BeginTakesSizeAboveN,
    high_bits: Fault::BeginTakesHighBits,
    empty: Fault::BeginTakesEmptySet,
    plain_1: Fault::BeginRefusesSetOfPlain1,
    order_3_21: Fault::BeginOrderOf3And21,
    turns: None,
};

const PLAN: SetFaults = SetFaults {
    turn_1: Fault::PlanTakesTurn1OfPlain,
    above_n: Fault::PlanTakesSizeAboveN,
    high_bits: Fault::PlanTakesHighBits,
    empty: Fault::PlanTakesEmptySet,
    plain_1: Fault::PlanRefusesSetOfPlain1,
    order_3_21: Fault::PlanOrderOf3And21,
    turns: Some([Fault::PlanByEveryTurn, Fault::PlanSkipsLargest, Fault::PlanByNextSizes]),
};

const PRICE: SetFaults = SetFaults {
    turn_1: Fault::PriceTakesTurn1OfPlain,
    above_n: Fault::PriceTakesSizeAboveN,
    high_bits: Fault::PriceTakesHighBits,
    empty: Fault::PriceTakesEmptySet,
    plain_1: Fault::PriceRefusesSetOfPlain1,
    order_3_21: Fault::PriceOrderOf3And21,
    turns: Some([Fault::PriceByEveryTurn, Fault::PriceSkipsLargest, Fault::PriceByNextSizes]),
};

const BUILD: SetFaults = SetFaults {
    turn_1: Fault::BuildTakesTurn1OfPlain,
    above_n: Fault::BuildTakesSizeAboveN,
    high_bits: Fault::BuildTakesHighBits,
    empty: Fault::BuildTakesEmptySet,
    plain_1: Fault::BuildRefusesSetOfPlain1,
    order_3_21: Fault::BuildOrderOf3And21,
    turns: Some([Fault::BuildByEveryTurn, Fault::BuildSkipsLargest, Fault::BuildByNextSizes]),
};

// The faults that Plan and Price may have with a given stack that is unseen.
struct UnseenFaults {
    order_10_20: Fault,
    order_20_15: Fault,
    gives_15: Fault,
    gives_20: Fault,
    takes_wanted: Fault,
}

const PLAN_UNSEEN: UnseenFaults = UnseenFaults {
    order_10_20: Fault::PlanOrderOf10And20,
    order_20_15: Fault::PlanOrderOf20And15,
    gives_15: Fault::PlanGives15ForUnseen,
    gives_20: Fault::PlanGives20ForLost,
    takes_wanted: Fault::PlanTakesWantedUnseen,
};

const PRICE_UNSEEN: UnseenFaults = UnseenFaults {
    order_10_20: Fault::PriceOrderOf10And20,
    order_20_15: Fault::PriceOrderOf20And15,
    gives_15: Fault::PriceGives15ForUnseen,
    gives_20: Fault::PriceGives20ForLost,
    takes_wanted: Fault::PriceTakesWantedUnseen,
};

fn is_right_set(kind: u8, n: u8, groups: Groups) -> bool {
    PAPER.right_groups(kind, n, groups).is_ok()
}

// 5 where S or G is wrong too, else 21.
fn size_before_set(kind: u8, n: u8, wanted: &Stack, size: u32, room: u32) -> u8 {
    match PAPER.measures(kind, n, wanted, paper::full_set(kind, n), size, room) {
        Err(5) => 5,
        _ => 21,
    }
}

impl Faulty {
    fn is(&self, fault: Fault) -> bool {
        self.0 == fault
    }

    // The set as the fault takes it, of a kind and n that may be wrong: what it lets by is left out, and nothing stands for every turn.
    fn set_taken(&self, faults: &SetFaults, kind: u8, n: u8, groups: Groups) -> Groups {
        if PAPER.right_kind_and_n(kind, n).is_err() {
            return groups;
        }
        match self.0 {
            fault if fault == faults.turn_1 && kind == PLAIN => groups & !1,
            fault if fault == faults.above_n => groups & ((1 << n) - 1),
            fault if fault == faults.high_bits => groups & 0xffff,
            fault if fault == faults.empty && groups == 0 => paper::full_set(kind, n),
            _ if is_right_set(kind, n, groups) => {
                faults.turns.map_or(groups, |turns| self.turns_taken(turns, kind, n, groups))
            }
            _ => groups,
        }
    }

    // The turns that the fault makes by a right set.
    fn turns_taken(&self, [every, skips_largest, next]: [Fault; 3], kind: u8, n: u8, groups: Groups) -> Groups {
        let full = paper::full_set(kind, n);
        let largest = paper::sizes_of(groups).last();
        let taken = match self.0 {
            fault if fault == every => full,
            fault if fault == skips_largest => groups & !paper::set_of(largest),
            fault if fault == next => groups << 1 & full,
            _ => groups,
        };
        if taken == 0 {
            groups
        } else {
            taken
        }
    }

    // Refusals from 3 to 21 and what comes after them, given otherwise by the fault.
    fn set_otherwise(&self, faults: &SetFaults, refusal: u8, kind: u8, n: u8, groups: Groups) -> u8 {
        match refusal {
            1 | 2 => refusal,
            3 if self.is(faults.order_3_21) && !is_right_set(kind, n, groups) => 21,
            3 | 21 => refusal,
            _ if self.is(faults.plain_1) && kind == PLAIN && n == 1 => 21,
            _ => refusal,
        }
    }

    // Plan's answer where 10, 20 or 15 has its place, given otherwise by the fault.
    fn unseen_otherwise(&self, faults: &UnseenFaults, planned: Planned, call: &Planning) -> Planned {
        let Planning { kind, n, wanted, given, table, .. } = *call;
        if !matches!(planned.refusal, 10 | 15 | 20) || table.len() != paper::bytes_of(paper::count_of_stacks(kind, n)) {
            return planned;
        }
        let entry_of = |stack: &Stack| paper::entry_at(table, u64::from(paper::index(kind, n, stack)));
        let refusal = match planned.refusal {
            10 if self.is(faults.order_10_20) && entry_of(given) == 3 => 20,
            20 if self.is(faults.order_20_15) && entry_of(wanted) != 0 => 15,
            20 if self.is(faults.gives_15) => 15,
            20 if self.is(faults.takes_wanted) && given == wanted => 0,
            15 if self.is(faults.gives_20) && entry_of(wanted) == 0 => 20,
            other => other,
        };
        Planned { refusal, ..planned }
    }

    // A job with what the fault overlooks put right.
    fn mended(&self, job: &Job) -> Job {
        let mut job = *job;
        let measures = PAPER.measures(job.kind, job.n, &job.wanted, job.groups, job.size, job.room);
        match (self.0, measures) {
            (Fault::LoosePhase, _) => {
                if let Phase::NoPhase(number, level) = job.phase {
                    job.phase = if number == 0 { Phase::Blanking } else { Phase::Finished(level) };
                }
            }
            (Fault::LooseCounts, _) => job.counts.iter_mut().for_each(|count| *count = (*count).min(1 << 60)),
            (Fault::LooseLateCounts, _) => job.counts[32..].iter_mut().for_each(|count| *count = (*count).min(1 << 60)),
            (Fault::LooseLevel, _) => {
                if let Phase::Level(d) = job.phase {
                    job.phase = Phase::Level(d.max(1));
                }
            }
            (Fault::LooseDeepest, _) => {
                if let Phase::Finished(deepest) = job.phase {
                    job.phase = Phase::Finished(deepest.min(254));
                }
            }
            (Fault::LooseSet, Err(21)) => job.groups = paper::full_set(job.kind, job.n),
            (Fault::LooseWay, _) => job.way = job.way.min(REVERSE),
            (Fault::LooseNoSegment, _) => job.loaded = job.loaded.min(NO_SEGMENT),
            (Fault::LooseLoaded, Ok(measures)) if u64::from(job.loaded) >= measures.segments => job.loaded = NO_SEGMENT,
            (Fault::LooseSweptB, Ok(measures)) => job.swept[measures.segments as usize..].fill(0),
            (Fault::LooseSweptJ, Ok(measures)) => {
                let below = paper::segments_below(measures.segments);
                job.swept.iter_mut().for_each(|swept| *swept &= below);
            }
            (Fault::LooseWanted, _) if (1..=10).contains(&job.n) => job.wanted = ordered(job.n),
            (Fault::LooseRoom, _) => job.room = job.room.max(16),
            (Fault::LoosePassed, Ok(measures)) => clip(&mut job.passed, measures, |j| measures.stacks_of(j)),
            (Fault::LooseWaiting, Ok(measures)) => clip(&mut job.waiting, measures, |_| measures.room),
            (Fault::LooseBeyondG, Ok(measures)) => {
                job.passed[measures.segments as usize..].fill(0);
                job.waiting[measures.segments as usize..].fill(0);
            }
            _ => {}
        }
        job
    }

    // The refusals that any call on a job shares, given otherwise by the fault.
    fn otherwise(&self, refusal: u8, job: &Job, j: u32, phase_is_right: bool) -> u8 {
        let strict = match self.0 {
            Fault::StrictCounts => job.counts.contains(&(1 << 60)),
            Fault::StrictLevel => matches!(job.phase, Phase::Level(32..)),
            Fault::StrictDeepest => matches!(job.phase, Phase::Finished(31..)),
            Fault::StrictSet => refusal != 7 && job.groups != paper::full_set(job.kind, job.n),
            Fault::StrictWay => job.way == REVERSE && !matches!(job.phase, Phase::Level(_)),
            Fault::StrictLoaded => job.loaded != NO_SEGMENT && !goes(job, REVERSE),
            Fault::StrictSwept => job.swept != [0; 64] && !goes(job, REVERSE),
            Fault::StrictSweptUnloaded => job.swept != [0; 64] && job.loaded == NO_SEGMENT,
            _ => false,
        };
        match refusal {
            _ if strict => 7,
            7 if self.is(Fault::OrderOf7And8) && !phase_is_right => 8,
            8 if self.is(Fault::OrderOf8And9) && j >= 64 => 9,
            10 if self.is(Fault::OrderOf10And11) => {
                let whole = PAPER.coherent(job).map(|measures| measures.stacks_of(u64::from(j)));
                if whole == Ok(u64::from(job.passed[j as usize])) {
                    11
                } else {
                    10
                }
            }
            other => other,
        }
    }

    fn expand_wrongly(&self, job: &Job, j: u32, segment: &mut [u8], logs: &mut [u32]) -> (Job, Option<u32>) {
        let measures = PAPER.coherent(job).expect("only accepted calls come here");
        let Phase::Level(d) = job.phase else { unreachable!() };
        let here = u64::from(j);
        let first = if self.is(Fault::ExpandFromTheFirst) { 0 } else { u64::from(job.passed[j as usize]) };
        let stacks = measures.stacks_of(here);
        let last = if self.is(Fault::ExpandSpares) { 4 * segment.len() as u64 } else { stacks };
        let expanded = if self.is(Fault::ExpandOfLevelD) { d % 3 } else { (d - 1) % 3 };
        let (label, counted) = self.marks(Fault::ExpandLabelsTo31, Fault::ExpandCountsTo31, d);
        let turns = [Fault::ExpandByEveryTurn, Fault::ExpandSkipsLargest, Fault::ExpandByNextSizes];
        let groups = self.turns_taken(turns, job.kind, job.n, job.groups);
        let mut after = *job;
        if self.is(Fault::ExpandDropsSet) {
            after.groups = paper::full_set(job.kind, job.n);
        }
        for i in first..last {
            if paper::entry_at(segment, i) == expanded {
                let parent = (here * u64::from(job.size) + i) % measures.stacks;
                let mut children = paper::children(&Job { groups, ..*job }, parent);
                if self.is(Fault::ExpandFallingTurns) {
                    children.reverse();
                }
                let full = self.full(&children, &after, here, measures);
                if full.is_some() && self.is(Fault::ExpandPassesWaiting) {
                    after.passed[j as usize] += 1;
                }
                if full.is_some() && !self.is(Fault::ExpandLogsHalf) {
                    return (after, full);
                }
                for mut child in children {
                    if self.is(Fault::ExpandWrapsAtMebibyte) {
                        child.offset = wrapped(child.offset);
                    }
                    if child.segment == here {
                        if self.is(Fault::ExpandMarksSeen) {
                            paper::set_entry(segment, child.offset, 3);
                        }
                        mark(segment, child.offset, label, &mut after.counts[counted]);
                        continue;
                    }
                    let waiting = &mut after.waiting[child.segment as usize];
                    if u64::from(*waiting) == measures.room {
                        return (after, full);
                    }
                    logs[measures.log_start(child.segment) + *waiting as usize] = child.offset as u32;
                    *waiting += 1;
                    after.counts[d as usize] += u64::from(self.is(Fault::ExpandCountsLogged));
                }
            }
            after.passed[j as usize] = (i + 1).min(stacks) as u32;
        }
        (after, None)
    }

    // A job in another phase or way, as one of these faults takes it for a reverse level.
    fn taken_for_reverse(&self, job: &Job, [forward, blanking, finished]: [Fault; 3]) -> Job {
        match job.phase {
            Phase::Level(_) if self.is(forward) => Job { way: REVERSE, ..*job },
            Phase::Blanking if self.is(blanking) => Job { phase: Phase::Level(1), ..*job },
            Phase::Finished(deepest) if self.is(finished) => Job { phase: Phase::Level(deepest.max(1)), ..*job },
            _ => *job,
        }
    }

    // A changed list for a segment as the fault takes it, where it is longer, or by the length of another segment's.
    fn list_taken(&self, [long, of_other]: [Fault; 2], list: &[u8], right: usize, other: usize) -> Vec<u8> {
        let mut taken = list.to_vec();
        if self.is(long) && list.len() > right || self.is(of_other) && list.len() == other {
            taken.resize(right, 0);
        } else if self.is(of_other) {
            taken.resize(right + 1, 0);
        }
        taken
    }

    // What an accepted Load leaves in the list, and its job.
    fn load_wrongly(&self, job: &Job, b: u32, segment: &[u8], list: &mut [u8]) -> Job {
        let measures = PAPER.coherent(job).expect("only accepted calls come here");
        let Phase::Level(d) = job.phase else { unreachable!() };
        let stacks = measures.stacks_of(u64::from(b));
        let label = match self.0 {
            Fault::LoadOfLevelD => d % 3,
            Fault::LoadOfLevelBefore => paper::before(d - 1),
            Fault::LoadOfLevelsTo31 => paper::before(d.min(31)),
            _ => paper::before(d),
        };
        let last = match self.0 {
            Fault::LoadTakesSpares => 4 * segment.len() as u64,
            Fault::LoadStopsAtMebibyte => stacks.min(4 << 20),
            _ => stacks,
        };
        if !self.is(Fault::LoadKeepsBits) {
            list.fill(0);
        }
        (0..last).filter(|&i| paper::entry_at(segment, i) == label).for_each(|i| paper::set_bit(list, i));
        match self.0 {
            Fault::LoadSetsSpares => (stacks..8 * list.len() as u64).for_each(|i| paper::set_bit(list, i)),
            Fault::LoadHighBitFirst => list.iter_mut().for_each(|byte| *byte = byte.reverse_bits()),
            _ => {}
        }
        let mut after = Job { loaded: b as u8, ..*job };
        match self.0 {
            Fault::LoadForgetsSegment => after.loaded = job.loaded,
            Fault::LoadClearsPairs => after.swept[b as usize] = 0,
            Fault::LoadNotesPair => after.swept[b as usize] |= 1 << b,
            Fault::LoadDropsSet => after.groups = paper::full_set(job.kind, job.n),
            _ => {}
        }
        after
    }

    // What an accepted Sweep leaves in the segment, and its job.
    fn sweep_wrongly(&self, job: &Job, j: u32, segment: &mut [u8], list: &[u8]) -> Job {
        let measures = PAPER.coherent(job).expect("only accepted calls come here");
        let Phase::Level(d) = job.phase else { unreachable!() };
        let (here, b) = (u64::from(j), u64::from(job.loaded));
        let (mut label, counted) = self.marks(Fault::SweepLabelsTo31, Fault::SweepCountsTo31, d);
        if self.is(Fault::SweepLabelsBefore) {
            label = paper::before(d);
        }
        let last = match self.0 {
            Fault::SweepMarksSpares => 4 * segment.len() as u64,
            Fault::SweepStopsAtMebibyte => measures.stacks_of(here).min(4 << 20),
            _ => measures.stacks_of(here),
        };
        let turns = [Fault::SweepByEveryTurn, Fault::SweepSkipsLargest, Fault::SweepByNextSizes];
        let by = Job { groups: self.turns_taken(turns, job.kind, job.n, job.groups), ..*job };
        let were = segment.to_vec();
        let mut after = *job;
        for i in 0..last {
            if paper::entry_at(segment, i) != 3 && !self.is(Fault::SweepMarksSeen) {
                continue;
            }
            let is_changed = |child: &&Child| {
                let looks = match self.0 {
                    Fault::SweepLooksInJ => child.segment == here,
                    Fault::SweepLooksInAll => true,
                    Fault::SweepLooksInNext => child.segment == (b + 1) % measures.segments,
                    _ => child.segment == b,
                };
                let bit = match self.0 {
                    Fault::SweepLooksAtBitBefore => child.offset.saturating_sub(1),
                    Fault::SweepHighBitFirst => child.offset ^ 7,
                    Fault::SweepWrapsAtMebibyte => child.offset % (8 * MEBIBYTE as u64),
                    _ => child.offset,
                };
                let set = bit < 8 * list.len() as u64 && paper::bit_at(list, bit);
                let entry = |segment: &[u8]| paper::entry_at(segment, child.offset);
                let is_fresh = || child.segment == here && entry(&were) == 3 && entry(segment) != 3;
                match self.0 {
                    Fault::SweepMarksUnlessSet => looks && !set,
                    Fault::SweepMarksOnFresh => looks && (set || is_fresh()),
                    _ => looks && set,
                }
            };
            let children = paper::children(&by, (here * u64::from(job.size) + i) % measures.stacks);
            let changed = children.iter().filter(is_changed).count() as u64;
            if changed > u64::from(self.is(Fault::SweepMarksByTwo)) {
                paper::set_entry(segment, i, label);
                after.counts[counted] += match self.0 {
                    Fault::SweepCountsTwice => 2,
                    Fault::SweepCountsBits => changed,
                    Fault::SweepCountsNothing => 0,
                    _ => 1,
                };
                if self.is(Fault::SweepMarksFirstOnly) {
                    break;
                }
            }
        }
        let (row, column) = (b as usize, here as usize);
        match self.0 {
            Fault::SweepNotesNothing => {}
            Fault::SweepNotesOtherOrder => after.swept[column] |= 1 << b,
            Fault::SweepNotesAll => after.swept[row] = paper::segments_below(measures.segments),
            _ => after.swept[row] |= 1 << here,
        }
        match self.0 {
            Fault::SweepNotesBothOrders => after.swept[column] |= 1 << b,
            Fault::SweepUnloads => after.loaded = NO_SEGMENT,
            Fault::SweepDropsSet => after.groups = paper::full_set(job.kind, job.n),
            _ => {}
        }
        after
    }

    // The label of level d and the place of its count, as five bits would hold the level by one of these faults.
    fn marks(&self, labels: Fault, counts: Fault, d: u8) -> (u8, usize) {
        let label = if self.is(labels) { d.min(31) % 3 } else { d % 3 };
        let counted = if self.is(counts) { d.min(31) } else { d };
        (label, counted as usize)
    }

    fn full(&self, children: &[Child], after: &Job, here: u64, measures: Measures) -> Option<u32> {
        let mut full = (0..measures.segments).filter(|&t| {
            let falling = children.iter().filter(|child| child.segment == t).count() as u64;
            let free = measures.room - u64::from(after.waiting[t as usize]);
            match self.0 {
                Fault::ExpandWaitsEarly => t != here && falling > 0 && falling >= free,
                Fault::ExpandWaitsLate => t != here && falling > 0 && free == 0,
                Fault::ExpandCountsOwnChildren => falling > free,
                _ => t != here && falling > free,
            }
        });
        let chosen = if self.is(Fault::ExpandNamesHighest) { full.next_back() } else { full.next() };
        chosen.map(|t| t as u32)
    }
}

impl Faulty {
    // The paper with the limit of a tariff that the fault moves.
    fn paper(&self, kind: u8) -> Paper {
        let mut paper = PAPER;
        let limits = &mut paper.limits;
        match self.0 {
            Fault::PriceTakes13Lines => limits.most_lines = 13,
            Fault::PriceTakesFirst0 => limits.least_first = 0,
            Fault::PriceTakesLastBeforeFirst => limits.last_past_first = -1,
            Fault::PriceTakesLastPastN => limits.last_past_n = 1,
            Fault::PriceTakesHigherPrice => limits.most_price += 1,
            Fault::PriceSkipsSize1 => limits.first_size = [2, 2],
            Fault::PriceSkipsSize1OfPlain if kind == PLAIN => limits.first_size = [2, 2],
            Fault::PriceSkipsSizeN => limits.size_past_n = [-1, -1],
            Fault::PriceTakesSizeWithoutLine => limits.least_lines_of_size = 0,
            Fault::PriceTakesFirstLineOfTwo => limits.most_lines_of_size = 12,
            Fault::PriceTakesTwoLinesOfSizeN => limits.size_past_n[1] = -1,
            _ => {}
        }
        paper
    }

    // The tariff as the fault counts its lines.
    fn counted(&self, tariff: &Tariff) -> Tariff {
        let count = match self.0 {
            Fault::PriceTakesLowByteOfCount => tariff.count % 256,
            Fault::PriceLooksPastCount if tariff.count < 12 => 12,
            _ => tariff.count,
        };
        Tariff { count, ..*tariff }
    }

    // The refusals of a tariff, given otherwise by the fault.
    fn tariff_otherwise(&self, refusal: u8, n: u8, groups: Groups, tariff: &Tariff) -> u8 {
        let of_tariff = PAPER.right_lines(n, tariff).err();
        let lines = &tariff.lines[..tariff.count.min(12) as usize];
        let lines_of = |size: u8| lines.iter().filter(|line| paper::covers(line, size)).count();
        let mut lines_of_sizes = (1..=n).map(|size| lines.iter().filter(|line| paper::covers(line, size)).count());
        match (self.0, refusal) {
            (Fault::PriceLooksAtTariffFirst, 1..) => of_tariff.unwrap_or(refusal),
            (Fault::PriceOrderOf10And17, 10) | (Fault::PriceOrderOf15And17, 15) if of_tariff == Some(17) => 17,
            (Fault::PriceOrderOf20And17, 20) if of_tariff == Some(17) => 17,
            (Fault::PriceAsksLinesOfSet, 18) if paper::sizes_of(groups).all(|size| lines_of(size) > 0) => {
                if lines_of_sizes.any(|lines| lines > 1) {
                    19
                } else {
                    0
                }
            }
            (Fault::PriceTakesTwoLinesBesideSet, 19) if paper::sizes_of(groups).all(|size| lines_of(size) < 2) => 0,
            (Fault::PriceOrderOf17And18, 17) if lines_of_sizes.any(|lines| lines == 0) => 18,
            (Fault::PriceOrderOf18And19, 18) if lines_of_sizes.any(|lines| lines > 1) => 19,
            (Fault::PriceLooksSizeBySize, 18) if lines_of_sizes.find(|&lines| lines != 1) > Some(1) => 19,
            (Fault::PriceLooksLineByLine, 17) if tariff.count <= 12 => {
                let right = lines.iter().take_while(|line| PAPER.right_line(n, line)).count();
                let meet = |size| lines[..right].iter().filter(|line| paper::covers(line, size)).count() > 1;
                if (1..=n).any(meet) {
                    19
                } else {
                    17
                }
            }
            _ => refusal,
        }
    }

    // The pennies of a plan, as the fault counts and rounds them.
    fn pennies(&self, plan: &[u8], lines: &[Line]) -> u32 {
        let sum_of = |turns: &[u8]| paper::thousandths(turns, lines);
        let sum = sum_of(plan);
        let below: Vec<u8> = plan.iter().map(|&k| if k > 1 { k - 1 } else { k }).collect();
        let once: Vec<u8> = (1..=12).filter(|k| plan.contains(k)).collect();
        match self.0 {
            Fault::PriceOfFirstTurn => paper::pennies(sum_of(&plan[..plan.len().min(1)])),
            Fault::PriceOfFirst30 => paper::pennies(sum_of(&plan[..plan.len().min(30)])),
            Fault::PriceForgetsTurn254 => paper::pennies(sum_of(&plan[..plan.len().min(253)])),
            Fault::PriceOfSizeBelow => paper::pennies(sum_of(&below)),
            Fault::PriceOfEachSizeOnce => paper::pennies(sum_of(&once)),
            Fault::PriceSumsIn16Bits => paper::pennies(sum % (1 << 16)),
            Fault::PriceSumsIn24Bits => paper::pennies(sum % (1 << 24)),
            Fault::PriceSumsIn27Bits => paper::pennies(sum % (1 << 27)),
            Fault::PricePenniesIn16Bits => paper::pennies(sum) % (1 << 16),
            Fault::PriceRoundsEachTurn => plan.iter().map(|&k| paper::pennies(sum_of(&[k]))).sum(),
            Fault::PriceRoundsDown => (sum / 1000) as u32,
            Fault::PriceRoundsUp => sum.div_ceil(1000) as u32,
            Fault::PriceRoundsHalvesDown => ((sum + 499) / 1000) as u32,
            Fault::PriceRoundsHalvesToEven if sum % 2000 == 500 => (sum / 1000) as u32,
            _ => paper::pennies(sum),
        }
    }
}

// What Plan is asked.
struct Planning<'a> {
    kind: u8,
    n: u8,
    wanted: &'a Stack,
    given: &'a Stack,
    table: &'a [u8],
}

impl Planning<'_> {
    fn has_wrong_length(&self, list: &[u8]) -> bool {
        self.table.len() != paper::bytes_of(paper::count_of_stacks(self.kind, self.n)) || list.len() < 254
    }

    fn entry_of(&self, stack: &Stack) -> u8 {
        paper::entry_at(self.table, u64::from(paper::index(self.kind, self.n, stack)))
    }

    // The turns by a rule, where they come to its end in no more than so many.
    fn turns_by(&self, rule: &Rule, groups: Groups, most: usize) -> Option<Vec<u8>> {
        let sizes: Vec<u8> = paper::sizes_of(groups).collect();
        let mut at = *self.given;
        let mut plan = Vec::new();
        while if rule.ends_at_zero { self.entry_of(&at) != 0 } else { at != *self.wanted } {
            let nearer = (self.entry_of(&at) + 2) % 3;
            let leads = |&k: &u8| self.entry_of(&paper::turned(self.kind, &at, k)) == nearer;
            let leading: Vec<u8> = sizes.iter().copied().filter(leads).collect();
            let &k = (rule.taken)(&sizes, &leading).filter(|_| plan.len() < most)?;
            plan.push(k);
            at = paper::turned(self.kind, &at, k);
        }
        Some(plan)
    }

    // Where a plan is looked for: what a rule leaves in the list, which held this before, and its answer.
    fn planned_by(&self, rule: &Rule, groups: Groups, planned: Planned, before: &[u8], list: &mut [u8]) -> Planned {
        let looks = matches!(planned.refusal, 0 | 15);
        if !looks || self.entry_of(self.wanted) != 0 || self.entry_of(self.given) == 3 {
            return planned;
        }
        list.copy_from_slice(before);
        let Some(plan) = self.turns_by(rule, groups, rule.most.min(list.len())) else {
            return Planned { refusal: 15, turns: 0 };
        };
        list[..plan.len()].copy_from_slice(&plan);
        Planned { refusal: 0, turns: plan.len() as u32 }
    }
}

// How a plan is made: the turn that is taken, of the set's sizes and those that lead one nearer, both rising; where it ends; the most turns.
struct Rule {
    taken: for<'a> fn(&'a [u8], &'a [u8]) -> Option<&'a u8>,
    ends_at_zero: bool,
    most: usize,
}

const RULE: Rule = Rule { taken: |_, leading| leading.last(), ends_at_zero: false, most: 254 };
const SMALLEST: Rule = Rule { taken: |_, leading| leading.first(), ..RULE };
const LARGEST_OF_SET: Rule = Rule { taken: |sizes, _| sizes.last(), ..RULE };

// Gives an unseen entry the label and one more in the count.
fn mark(segment: &mut [u8], i: u64, label: u8, count: &mut u64) {
    if paper::entry_at(segment, i) == 3 {
        paper::set_entry(segment, i, label);
        *count += 1;
    }
}

// Whether a job is in a level of this way.
fn goes(job: &Job, way: u8) -> bool {
    matches!(job.phase, Phase::Level(_)) && job.way == way
}

// The bytes of a segment's changed list, or 0 where there is no such segment.
fn list_bytes(job: &Job, b: u32) -> usize {
    PAPER.coherent(job).map_or(0, |of| if u64::from(b) < of.segments { of.list_bytes_of(u64::from(b)) } else { 0 })
}

// Whether a segment that there is has a wrong length.
fn has_wrong_segment(job: &Job, j: u32, segment: &[u8]) -> bool {
    PAPER.coherent(job).is_ok_and(|of| u64::from(j) < of.segments && segment.len() != of.bytes_of(u64::from(j)))
}

// A table of which nothing past the first mebibyte is seen.
fn seen_to_mebibyte(table: &[u8]) -> Vec<u8> {
    let mut near = table.to_vec();
    near.iter_mut().skip(MEBIBYTE).for_each(|byte| *byte = 0xff);
    near
}

fn clip(numbers: &mut [u32; 64], measures: Measures, most: impl Fn(u64) -> u64) {
    for j in 0..measures.segments {
        let number = &mut numbers[j as usize];
        *number = u64::from(*number).min(most(j)) as u32;
    }
}

impl System for Faulty {
    fn index_of_stack(&self, kind: u8, n: u8, mut stack: Stack) -> Indexed {
        if self.is(Fault::IndexSkipsUnusedPlaces) {
            stack[(n as usize).min(12)..].fill(0);
        }
        let mut answer = PAPER.index_of_stack(kind, n, stack);
        if self.is(Fault::CoatsFromTheBottom) && answer.refusal == 0 && kind == COATED {
            let coats = answer.index & ((1 << n) - 1);
            answer.index = (answer.index >> n << n) | (coats.reverse_bits() >> (32 - n));
        }
        answer
    }

    fn stack_at_index(&self, kind: u8, n: u8, index: u32) -> Stacked {
        PAPER.stack_at_index(kind, n, index)
    }

    fn turn(&self, kind: u8, n: u8, stack: Stack, k: u8) -> Stacked {
        let mut answer = PAPER.turn(kind, n, stack, k);
        if self.is(Fault::TurnOnePlain) && answer.refusal == 4 && k == 1 {
            answer = Stacked { refusal: 0, stack };
        }
        if self.is(Fault::TurnKeepsCoats) && answer.refusal == 0 {
            answer.stack = paper::turned(0, &stack, k);
        }
        if self.is(Fault::TurnOrderOf3And4) && answer.refusal == 3 && !(1..=n).contains(&k) {
            answer.refusal = 4;
        }
        answer
    }

    fn begin(&self, kind: u8, n: u8, wanted: Stack, groups: Groups, size: u32, room: u32) -> Answer {
        let taken = self.set_taken(&BEGIN, kind, n, groups);
        let mut answer = PAPER.begin(kind, n, wanted, taken, size, room);
        answer.refusal = self.set_otherwise(&BEGIN, answer.refusal, kind, n, groups);
        if self.is(Fault::BeginOrderOf21And5) && answer.refusal == 21 {
            answer.refusal = size_before_set(kind, n, &wanted, size, room);
        }
        let loose = match (self.0, answer.refusal) {
            (Fault::BeginTakesRoom15, 6) => room == 15,
            (Fault::BeginTakes65Segments, 5) => size.is_multiple_of(4) && (4..=67_108_864).contains(&size),
            (Fault::BeginTakesOddSize, 5) => !size.is_multiple_of(4) && size > 4,
            _ => false,
        };
        if loose {
            return Answer { refusal: 0, job: Job { kind, n, wanted, groups, size, room, ..NO_JOB } };
        }
        if answer.refusal != 0 {
            answer.job = Job { loaded: if self.is(Fault::BeginRefusedLoads0) { 0 } else { NO_SEGMENT }, ..NO_JOB };
        } else {
            answer.job.groups = groups;
            match self.0 {
                Fault::BeginForgetsSet => answer.job.groups = 0,
                Fault::BeginGivesFullSet => answer.job.groups = paper::full_set(kind, n),
                Fault::BeginGivesReverse => answer.job.way = REVERSE,
                Fault::BeginLoads0 => answer.job.loaded = 0,
                _ => {}
            }
        }
        if self.is(Fault::BeginOrderOf5And6) && answer.refusal == 5 && !(16..=1_048_576).contains(&room) {
            answer.refusal = 6;
        }
        answer
    }

    fn blank(&self, job: &Job, j: u32, segment: &mut [u8]) -> Answer {
        let mut given = self.mended(job);
        let place = (j as usize).min(63);
        if self.is(Fault::BlankTwice) && job.phase == Phase::Blanking {
            given.passed[place] = 0;
        }
        let partly = self.is(Fault::BlankRefusesPartly) && job.passed[place] > 0;
        let before = segment.to_vec();
        let mut answer = PAPER.blank(&given, j, segment);
        let refusal = self.otherwise(answer.refusal, job, j, job.phase == Phase::Blanking);
        let refusal = match (self.0, refusal) {
            (_, 0) if partly => 11,
            (Fault::BlankNotReverse, 0) if job.way == REVERSE => 8,
            _ => refusal,
        };
        if refusal != 0 {
            segment.copy_from_slice(&before);
            return Answer { refusal, job: *job };
        }
        match self.0 {
            Fault::BlankSparesZero => {
                let spares = 4 * segment.len() as u64 - u64::from(answer.job.passed[place]);
                let stacks = u64::from(answer.job.passed[place]);
                (stacks..stacks + spares).for_each(|i| paper::set_entry(segment, i, 0));
            }
            Fault::BlankStopsAtMebibyte if segment.len() > MEBIBYTE => {
                segment[MEBIBYTE..].copy_from_slice(&before[MEBIBYTE..])
            }
            Fault::BlankForgetsWanted => segment.fill(0xff),
            Fault::BlankPassesSize => answer.job.passed[place] = job.size,
            Fault::BlankDropsSet => answer.job.groups = paper::full_set(job.kind, job.n),
            _ => {}
        }
        answer
    }

    fn expand(&self, job: &Job, j: u32, segment: &mut [u8], logs: &mut [u32]) -> Expanded {
        let mut given = self.mended(job);
        if self.is(Fault::ExpandTakesReverse) && given.way == REVERSE {
            given.way = FORWARD;
        }
        let (before, logs_before) = (segment.to_vec(), logs.to_vec());
        let mut answer = PAPER.expand(&given, j, segment, logs);
        if self.is(Fault::ExpandTakesPassed) && answer.refusal == 11 {
            given.passed[j as usize] = 0;
            answer = Expanded { refusal: 0, waits: false, on: 0, job: given };
        }
        let refusal = self.otherwise(answer.refusal, job, j, goes(job, FORWARD));
        segment.copy_from_slice(&before);
        logs.copy_from_slice(&logs_before);
        if refusal != 0 {
            return Expanded { refusal, waits: false, on: 0, job: *job };
        }
        let (after, on) = self.expand_wrongly(&given, j, segment, logs);
        Expanded { refusal: 0, waits: on.is_some(), on: on.unwrap_or(0), job: after }
    }

    fn settle(&self, job: &Job, j: u32, segment: &mut [u8], logs: &[u32]) -> Answer {
        let mut given = self.mended(job);
        if self.is(Fault::SettleTakesReverse) && given.way == REVERSE {
            given.way = FORWARD;
        }
        let before = segment.to_vec();
        let near: Vec<u32> = logs.iter().map(|&offset| wrapped(u64::from(offset)) as u32).collect();
        let logs = if self.is(Fault::SettleWrapsAtMebibyte) { &near } else { logs };
        let mut answer = PAPER.settle(&given, j, segment, logs);
        let mut refusal = self.otherwise(answer.refusal, job, j, goes(job, FORWARD));
        if refusal != 0 && refusal != 12 {
            segment.copy_from_slice(&before);
            return Answer { refusal, job: *job };
        }
        let Ok(measures) = PAPER.coherent(&given) else { unreachable!() };
        let Phase::Level(d) = given.phase else { unreachable!() };
        let stacks = measures.stacks_of(u64::from(j));
        let stretch = &logs[measures.log_start(u64::from(j))..][..measures.room as usize];
        let waiting = &stretch[..given.waiting[j as usize] as usize];
        let right = |offset: &u32| u64::from(*offset) < stacks;
        match self.0 {
            Fault::SettleLabelsTo31 | Fault::SettleCountsTo31 if refusal == 0 => {
                let (label, counted) = self.marks(Fault::SettleLabelsTo31, Fault::SettleCountsTo31, d);
                segment.copy_from_slice(&before);
                answer.job.counts = given.counts;
                waiting.iter().for_each(|&i| mark(segment, u64::from(i), label, &mut answer.job.counts[counted]));
            }
            Fault::SettleMarksSeen => waiting.iter().for_each(|&i| {
                if refusal == 0 {
                    paper::set_entry(segment, u64::from(i), d % 3)
                }
            }),
            Fault::SettleCountsNothing if refusal == 0 => answer.job.counts = given.counts,
            Fault::SettleMarksNothing => segment.copy_from_slice(&before),
            Fault::SettleKeepsWaiting if refusal == 0 => answer.job.waiting = given.waiting,
            Fault::SettleDropsSet if refusal == 0 => answer.job.groups = paper::full_set(job.kind, job.n),
            Fault::SettleTakesSpares if refusal == 12 => {
                let in_bytes = |offset: &u32| u64::from(*offset) < 4 * before.len() as u64;
                if waiting.iter().all(in_bytes) {
                    refusal = 0;
                    answer.job = given;
                    answer.job.waiting[j as usize] = 0;
                    waiting.iter().for_each(|&i| paper::mark(segment, u64::from(i), d, &mut answer.job.counts));
                }
            }
            Fault::SettleLooksPastWaiting if refusal == 0 && !stretch.iter().all(right) => {
                segment.copy_from_slice(&before);
                refusal = 12;
                answer.job = *job;
            }
            Fault::SettleMarksThenRefuses if refusal == 12 => {
                let mut counts = given.counts;
                let sound = waiting.iter().take_while(|offset| right(offset));
                sound.for_each(|&i| paper::mark(segment, u64::from(i), d, &mut counts));
            }
            _ => {}
        }
        Answer { refusal, job: answer.job }
    }

    fn look(&self, job: &Job, j: u32, logs: &[u32]) -> Looked {
        let mut answer = PAPER.look(&self.mended(job), j, logs);
        let not_now = self.is(Fault::LookNotWhileBlanking) && job.phase == Phase::Blanking
            || self.is(Fault::LookNotReverse) && goes(job, REVERSE);
        if not_now && answer.number == 0 {
            answer = Looked { start: 0, len: 0, number: 8 };
        }
        if self.is(Fault::LookFromWaiting) && answer.number == 0 {
            answer.start += answer.len;
            answer.len = job.room as usize - answer.len;
        }
        answer
    }

    fn close(&self, job: &Job, way: u8) -> Answer {
        let mut given = self.mended(job);
        let measures = PAPER.coherent(&given);
        let (all_passed, all_swept) = measures.map_or(([0; 64], [0; 64]), |measures| {
            let stacks = |j| if j < measures.segments { measures.stacks_of(j) as u32 } else { 0 };
            let row = |b| if b < measures.segments { paper::segments_below(measures.segments) } else { 0 };
            (std::array::from_fn(|j| stacks(j as u64)), std::array::from_fn(|b| row(b as u64)))
        });
        if measures.is_ok() && job.phase != Phase::Blanking {
            match self.0 {
                Fault::CloseWithLogWaiting => given.waiting = [0; 64],
                Fault::CloseUnpassed => given.passed = all_passed,
                Fault::CloseUnswept => given.swept = all_swept,
                Fault::CloseAsksLoadedOnly => {
                    given.swept = all_swept;
                    if let Some(swept) = given.swept.get_mut(job.loaded as usize) {
                        *swept = job.swept[job.loaded as usize];
                    }
                }
                Fault::CloseAsksEitherOrder => {
                    let other = |b: usize| (0..64).filter(|&j| job.swept[j] >> b & 1 == 1).map(|j| 1 << j).sum::<u64>();
                    given.swept = std::array::from_fn(|b| job.swept[b] | other(b));
                }
                _ => {}
            }
        }
        let mut answer = PAPER.close(&given, way);
        let ended = matches!(job.phase, Phase::Finished(_));
        answer.refusal = self.otherwise(answer.refusal, job, 0, !ended);
        let brought = |d: u8| job.phase == Phase::Level(d) && job.counts[d as usize] != 0;
        let (reverse, blanks_reverse) = (goes(job, REVERSE), job.phase == Phase::Blanking && job.way == REVERSE);
        answer.refusal = match (self.0, answer.refusal) {
            (Fault::CloseOrderOf13And14, 13) if brought(255) => 14,
            (Fault::CloseStopsAtLevel31, 0) if brought(31) => 14,
            (Fault::CloseStopsAtLevel254, 0) if brought(254) => 14,
            (Fault::CloseAsksPassedReverse, 0) if reverse && job.passed != all_passed => 13,
            (Fault::CloseAsksWaitingReverse, 0) if reverse && job.waiting != [0; 64] => 13,
            (Fault::CloseAsksPairsForward, 0) if goes(job, FORWARD) && job.swept != all_swept => 13,
            (Fault::CloseAsksPairsBlanking, 0) if blanks_reverse && job.swept != all_swept => 13,
            (Fault::CloseRefusesWay2, 0) if way > REVERSE => 8,
            (_, other) => other,
        };
        if self.is(Fault::CloseTakesLevel255) && answer.refusal == 14 {
            return Answer { refusal: 0, job: Job { phase: Phase::Finished(254), passed: [0; 64], ..*job } };
        }
        if answer.refusal != 0 {
            return Answer { refusal: answer.refusal, job: *job };
        }
        let after = &mut answer.job;
        match (self.0, job.phase, after.phase) {
            (Fault::CloseKeepsPassed, _, _) => after.passed = job.passed,
            (Fault::CloseDeepestD, _, Phase::Finished(deepest)) => after.phase = Phase::Finished(deepest + 1),
            (Fault::CloseAddsCount0, Phase::Blanking, _) => after.counts[0] = job.counts[0] + 1,
            (Fault::CloseFinishesAtLevel255, Phase::Level(254), Phase::Level(255)) => {
                after.phase = Phase::Finished(254)
            }
            (Fault::CloseDropsSet, _, _) => after.groups = paper::full_set(job.kind, job.n),
            (Fault::CloseTakesWay1Only, _, _) => after.way = u8::from(way == REVERSE),
            (Fault::CloseGivesWay2, _, _) => after.way = way,
            (Fault::CloseKeepsWay, _, _) | (Fault::CloseKeepsWayAtEnd, _, Phase::Finished(_)) => after.way = job.way,
            (Fault::CloseForwardAtEnd, _, Phase::Finished(_)) => after.way = FORWARD,
            (Fault::CloseKeepsLoaded, _, _) => after.loaded = job.loaded,
            (Fault::CloseKeepsSwept, _, _) => after.swept = job.swept,
            (Fault::CloseClearsReverseOnly, _, _) if !reverse => (after.loaded, after.swept) = (job.loaded, job.swept),
            (Fault::CloseKeepsPassedReverse, _, _) if reverse => after.passed = job.passed,
            (Fault::CloseClearsWaitingReverse, _, _) if reverse => after.waiting = [0; 64],
            (Fault::CloseByZero, Phase::Level(d), Phase::Level(_)) if job.counts[d as usize] < 3 => {
                after.phase = Phase::Finished(d - 1)
            }
            _ => {}
        }
        answer
    }

    fn load(&self, job: &Job, b: u32, segment: &[u8], list: &mut [u8]) -> Answer {
        let phases = [Fault::LoadTakesForward, Fault::LoadTakesBlanking, Fault::LoadTakesFinished];
        let given = self.taken_for_reverse(&self.mended(job), phases);
        let lengths = [Fault::LoadTakesLongList, Fault::LoadTakesListOf0];
        let mut taken = self.list_taken(lengths, list, list_bytes(&given, b), list_bytes(&given, 0));
        let refusal = PAPER.load(&given, b, segment, &mut taken).refusal;
        let all = PAPER.coherent(&given).map_or(0, |measures| paper::segments_below(measures.segments));
        let refusal = match (self.0, self.otherwise(refusal, job, b, goes(job, REVERSE))) {
            (Fault::LoadRefusesAgain, 0) if u32::from(job.loaded) == b => 11,
            (Fault::LoadRefusesSwept, 0) if job.swept[b as usize] == all => 11,
            (Fault::LoadOrderOf8And10, 8) if has_wrong_segment(job, b, segment) => 10,
            (_, refusal) => refusal,
        };
        if refusal != 0 {
            if self.is(Fault::LoadWritesRefused) && refusal == 10 {
                list.fill(0);
            }
            return Answer { refusal, job: *job };
        }
        let written = list.len().min(taken.len());
        taken[..written].copy_from_slice(&list[..written]);
        let job = self.load_wrongly(&given, b, segment, &mut taken);
        list[..written].copy_from_slice(&taken[..written]);
        Answer { refusal: 0, job }
    }

    fn sweep(&self, job: &Job, j: u32, segment: &mut [u8], list: &[u8]) -> Answer {
        let phases = [Fault::SweepTakesForward, Fault::SweepTakesBlanking, Fault::SweepTakesFinished];
        let mut given = self.taken_for_reverse(&self.mended(job), phases);
        if self.is(Fault::SweepTakesUnloaded) && given.loaded == NO_SEGMENT {
            given.loaded = 0;
        }
        let (row, column) = (given.loaded as usize, j as usize);
        let is_pair = row < 64 && column < 64;
        let swept = |b: usize, j: usize| is_pair && job.swept[b] >> j & 1 == 1;
        match self.0 {
            Fault::SweepTakesSwept if swept(row, column) => given.swept[row] ^= 1 << column,
            Fault::SweepAsksOtherOrder if swept(row, column) != swept(column, row) => given.swept[row] ^= 1 << column,
            _ => {}
        }
        let lengths = [Fault::SweepTakesLongList, Fault::SweepTakesListOfJ];
        let right = list_bytes(&given, u32::from(given.loaded));
        let taken = self.list_taken(lengths, list, right, list_bytes(&given, j));
        let before = segment.to_vec();
        let refusal = PAPER.sweep(&given, j, segment, &taken).refusal;
        segment.copy_from_slice(&before);
        let unloaded = job.loaded == NO_SEGMENT;
        let has_spare_bits = || {
            let stacks = PAPER.coherent(&given).map_or(0, |measures| measures.stacks_of(u64::from(given.loaded)));
            (stacks..8 * taken.len() as u64).any(|i| paper::bit_at(&taken, i))
        };
        let refusal = match (self.0, self.otherwise(refusal, job, j, goes(job, REVERSE))) {
            (Fault::SweepOrderOf8And22, 8) | (Fault::SweepOrderOf9And22, 9) if unloaded => 22,
            (Fault::SweepOrderOf22And10, 22) if has_wrong_segment(job, j, segment) => 10,
            (Fault::SweepOrderOf10And11, 10) if swept(row, column) => 11,
            (Fault::SweepRefusesSpareBits, 0) if has_spare_bits() => 10,
            (_, refusal) => refusal,
        };
        if refusal == 11 && self.is(Fault::SweepMarksRefused) {
            self.sweep_wrongly(&given, j, segment, &taken);
        }
        if refusal != 0 {
            return Answer { refusal, job: *job };
        }
        Answer { refusal: 0, job: self.sweep_wrongly(&given, j, segment, &taken) }
    }

    fn read_entry(&self, kind: u8, n: u8, table: &[u8], index: u32) -> Entry {
        let mut answer = PAPER.read_entry(kind, n, table, index);
        let in_range = |n: u8| n >= 1 && n <= 12 - 2 * kind;
        if self.is(Fault::ReadWrapsAtMebibyte) && answer.refusal == 0 {
            answer.entry = paper::entry_at(table, wrapped(u64::from(index)));
        }
        if self.is(Fault::ReadBitsReversed) && answer.refusal == 0 {
            answer.entry = (answer.entry >> 1) | (answer.entry << 1 & 2);
        }
        if answer.refusal == 10 && in_range(n) {
            let stacks = paper::count_of_stacks(kind, n);
            if self.is(Fault::ReadOrderOf10And4) && u64::from(index) >= stacks {
                answer.refusal = 4;
            }
            let long = table.len() > paper::bytes_of(stacks) && u64::from(index) < stacks;
            if self.is(Fault::ReadTakesLongTable) && long {
                answer = Entry { refusal: 0, entry: paper::entry_at(table, u64::from(index)) };
            }
        }
        answer
    }

    fn plan(
        &self,
        kind: u8,
        n: u8,
        wanted: Stack,
        given: Stack,
        groups: Groups,
        table: &[u8],
        list: &mut [u8],
    ) -> Planned {
        let mut lent = list.to_vec();
        match (self.0, lent.len()) {
            (Fault::PlanTakesShortList, 253) | (Fault::PlanTakesListOf30, 30..) => lent.resize(lent.len().max(254), 0),
            _ => {}
        }
        let near = self.is(Fault::PlanStopsAtMebibyte).then(|| seen_to_mebibyte(table));
        let table = near.as_deref().unwrap_or(table);
        let taken = self.set_taken(&PLAN, kind, n, groups);
        let mut answer = PAPER.plan(kind, n, wanted, given, taken, table, &mut lent);
        let refusal = self.set_otherwise(&PLAN, answer.refusal, kind, n, groups);
        if refusal != answer.refusal {
            return Planned { refusal, turns: 0 };
        }
        let call = Planning { kind, n, wanted: &wanted, given: &given, table };
        answer = self.unseen_otherwise(&PLAN_UNSEEN, answer, &call);
        if self.is(Fault::PlanOrderOf3And10) && answer.refusal == 3 && list.len() < 254 {
            answer.refusal = 10;
        }
        if self.is(Fault::PlanOrderOf21And10) && answer.refusal == 21 && call.has_wrong_length(list) {
            answer.refusal = 10;
        }
        let before = list.to_vec();
        let short = list.len().min(lent.len());
        list[..short].copy_from_slice(&lent[..short]);
        let rule = match self.0 {
            Fault::PlanTakesSmallest => Some(SMALLEST),
            Fault::PlanTakesLargestOfSet => Some(LARGEST_OF_SET),
            Fault::PlanEndsAtZero => Some(Rule { ends_at_zero: true, ..RULE }),
            Fault::PlanTakes255 => Some(Rule { most: 255, ..RULE }),
            _ => None,
        };
        if let Some(rule) = rule {
            return call.planned_by(&rule, taken, answer, &before, list);
        }
        let looks = matches!(answer.refusal, 0 | 15);
        match self.0 {
            Fault::PlanTakes30Only if answer.turns > 30 => answer = Planned { refusal: 15, turns: 0 },
            Fault::PlanTakes253Only if answer.turns > 253 => answer = Planned { refusal: 15, turns: 0 },
            Fault::PlanClearsRest if answer.refusal == 0 => list[answer.turns as usize..].fill(0),
            Fault::PlanWritesRefused if answer.refusal == 15 => list[0] ^= 1,
            Fault::PlanSkipsWantedEntry if looks && given == wanted && call.entry_of(&wanted) != 3 => {
                answer = Planned { refusal: 0, turns: 0 }
            }
            _ => {}
        }
        answer
    }

    fn price(
        &self,
        kind: u8,
        n: u8,
        wanted: Stack,
        given: Stack,
        groups: Groups,
        table: &[u8],
        list: &mut [u8],
        tariff: &Tariff,
    ) -> Priced {
        let near = self.is(Fault::PriceStopsAtMebibyte).then(|| seen_to_mebibyte(table));
        let table = near.as_deref().unwrap_or(table);
        let before = list.to_vec();
        let taken = self.set_taken(&PRICE, kind, n, groups);
        let call = Planning { kind, n, wanted: &wanted, given: &given, table };
        let mut planned_list = list.to_vec();
        if self.is(Fault::PriceTakesListOf30) && list.len() >= 30 {
            planned_list.resize(list.len().max(254), 0);
        }
        let mut planned = PAPER.plan(kind, n, wanted, given, taken, table, &mut planned_list);
        planned_list.truncate(list.len());
        planned.refusal = self.set_otherwise(&PRICE, planned.refusal, kind, n, groups);
        if self.is(Fault::PriceOrderOf21And10) && planned.refusal == 21 && call.has_wrong_length(list) {
            planned.refusal = 10;
        }
        planned = self.unseen_otherwise(&PRICE_UNSEEN, planned, &call);
        let rule = match self.0 {
            Fault::PriceTakesSmallest => Some(SMALLEST),
            Fault::PriceTakesLargestOfSet => Some(LARGEST_OF_SET),
            _ => None,
        };
        if let Some(rule) = rule {
            planned = call.planned_by(&rule, taken, planned, &before, &mut planned_list);
        }
        let plan = &planned_list[..(planned.turns as usize).min(list.len())];
        let tariff = self.counted(tariff);
        let lines = &tariff.lines[..tariff.count.min(12) as usize];
        let mut answer = Priced { refusal: planned.refusal, turns: 0, pennies: 0 };
        if answer.refusal == 0 {
            answer.refusal = self.paper(kind).right_lines(n, &tariff).err().unwrap_or(0);
        }
        answer.refusal = self.tariff_otherwise(answer.refusal, n, groups, &tariff);
        if answer.refusal == 0 {
            answer.turns = planned.turns;
            list.copy_from_slice(&planned_list);
        }
        match (self.0, answer.refusal) {
            (Fault::PriceWritesRefused, 17..=19) => list.copy_from_slice(&planned_list),
            (Fault::PriceKeepsList, 0) => list.copy_from_slice(&before),
            (Fault::PriceClearsRest, 0) => list[plan.len()..].fill(0),
            (Fault::PriceRefusedWithTurns, 17..=19) => answer.turns = planned.turns,
            (_, 0) | (Fault::PriceRefusedWithPennies, 17..=19) => answer.pennies = self.pennies(plan, lines),
            _ => {}
        }
        answer
    }

    fn build_table(
        &self,
        kind: u8,
        n: u8,
        wanted: Stack,
        groups: Groups,
        size: u32,
        room: u32,
        table: &mut [u8],
        logs: &mut [u32],
        list: &mut [u8],
    ) -> Answer {
        let taken = self.set_taken(&BUILD, kind, n, groups);
        let fields = Fields { kind, n, wanted, groups: taken, size, room };
        let (mut bytes, mut words, mut lent_list) = (table.len(), logs.len(), list.to_vec());
        if let Ok(measures) = fields.measures() {
            match self.0 {
                Fault::BuildTakesLongTable => bytes = bytes.min(paper::bytes_of(measures.stacks)),
                Fault::BuildTakesLongLog => words = words.min(measures.log_numbers()),
                _ => {}
            }
            let lengths = [Fault::BuildTakesLongList, Fault::BuildTakesListOfLast];
            let [first, last] = [0, measures.segments - 1].map(|b| measures.list_bytes_of(b));
            lent_list = self.list_taken(lengths, list, first, last);
        }
        let before = table.to_vec();
        let way = |build: &Build| {
            let (unseen, closing) = build.unseen_and_closing();
            match self.0 {
                Fault::BuildForwardOnly => FORWARD,
                Fault::BuildReverseOnly => REVERSE,
                Fault::BuildReverseWhereFewer => u8::from(unseen * build.measures.segments < closing),
                Fault::BuildForgetsSegments => u8::from(unseen <= closing),
                _ => build::chosen_way(build),
            }
        };
        let (lent, lent_logs) = (&mut table[..bytes], &mut logs[..words]);
        let mut answer = build::whole_table(&PAPER, &fields, way, lent, lent_logs, &mut lent_list);
        let refusal = self.set_otherwise(&BUILD, answer.refusal, kind, n, groups);
        if refusal != answer.refusal {
            table.copy_from_slice(&before);
            return Answer { refusal, job: NO_JOB };
        }
        if refusal == 0 {
            answer.job.groups = groups;
        }
        match (self.0, answer.refusal) {
            (Fault::BuildOrderOf21And5, 21) => answer.refusal = size_before_set(kind, n, &wanted, size, room),
            (Fault::BuildForgetsSet, 0) => answer.job.groups = 0,
            (Fault::BuildGivesFullSet, 0) => answer.job.groups = paper::full_set(kind, n),
            (Fault::BuildOrderOf6And10, 6) if table.len() != paper::bytes_of(paper::count_of_stacks(kind, n)) => {
                answer.refusal = 10
            }
            (Fault::BuildRefusedWithJob, 10) | (Fault::BuildAnswersBegun, 0) => {
                answer.job = PAPER.begin(kind, n, wanted, groups, size, room).job
            }
            (Fault::BuildKeepsTable, 0) => table.copy_from_slice(&before),
            (Fault::BuildClearsList, 0) => lent_list.fill(0),
            (Fault::BuildRefusedLoads0, 1..) => answer.job.loaded = 0,
            (Fault::BuildWritesRefused, 1..) => table.iter_mut().for_each(|byte| *byte ^= 1),
            (Fault::BuildDeepestD, 0) => {
                if let Phase::Finished(deepest) = answer.job.phase {
                    answer.job.phase = Phase::Finished(deepest + 1);
                }
            }
            _ => {}
        }
        if !self.is(Fault::BuildKeepsList) {
            let written = list.len().min(lent_list.len());
            list[..written].copy_from_slice(&lent_list[..written]);
        }
        answer
    }
}
