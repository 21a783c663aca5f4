//! Wrong readings of document 01 and of requests 1 to 3, 5 and 6, one at a time. A generated call reaches a situation
//! if the wrong reading gives another outcome there than the right one; an example on the pages shows it in the same
//! way.
//! With `Slip::None` every call gives what the plain modules give.

use crate::archive::*;
use crate::calendar::{days_of_month, next_month, LAST};
use crate::filing::names;
use crate::settle::{curve_power, Pairing, CURVE_POWER, IRRADIANCE, NOMINAL, NONE, OCTOBER, POWER, SPEED};
use std::ops::RangeInclusive;

/// Which call a slip belongs to.
#[derive(Clone, Copy, Debug, PartialEq, Eq)]
pub enum Of {
    Settle,
    Fresh,
    Append,
    Show,
    Audit,
    DeliveryDay,
    TakeBack,
    Correction,
    Preview,
    Program,
}

/// The answer of a slip that would walk in a circle.
pub const ENDLESS: Refusal = 999;

macro_rules! slips {
    (generated { $($name:ident $of:ident $point:literal $what:literal)* }
     pages { $($further:ident $call:ident $section:literal $does:literal)* }) => {
        #[derive(Clone, Copy, Debug, PartialEq, Eq)]
        pub enum Slip { None, $($name,)* $($further),* }

        /// Each slip with its call, the point it is about ("!" where a decision is marked so) and what it does.
        /// Generated calls have to reach all of them.
        pub const SLIPS: &[(Slip, Of, &str, &str)] = &[$((Slip::$name, Of::$of, $point, $what)),*];

        /// Further ones, with a section of docs/FORMAT.md (F) or docs/RULES.md (R). Examples on these pages have to show
        /// them as well as the others.
        pub const FURTHER: &[(Slip, Of, &str, &str)] = &[$((Slip::$further, Of::$call, $section, $does)),*];
    };
}

slips! {
    generated {
        OwnerNumber Settle "6!" "a link need only exceed the owner of its chain"
        EarlyMissing Settle "12!" "a place of U or more is 4 or 5 at once"
        NarrowPlaces Settle "13!" "places cut to 32 bits"
        PlantFirst Settle "17!" "6 tested on reaching the plant"
        WalksFirst Settle "19!" "all chains walked before any value is tested"
        StopAtLimit Settle "20!" "walk ends at the 97th before-quarter or 2,977th quarter"
        LinksThenKinds Settle "21!" "all links of a chain for 2, then all kinds for 3"
        PointByPoint Settle "24!" "9 and 10 point by point"
        CountFirst Settle "24!" "fewer than two points is 10 before 9"
        TouchedPowers Settle "25!" "curve power tested only where a speed touches it"
        UsedOnly Settle "30!" "measured power tested in the four used ones only"
        AllMarked Settle "30!" "measured power tested in marked ones behind the fourth too"
        AllBefore Settle "30!" "measured power tested in unmarked ones too"
        WeatherOfMarked Settle "31!" "speed tested in marked ones below 10 % too"
        WeatherBehind Settle "31!" "speed of a usable fifth tested"
        FewFirst Settle "31!" "too few usable ones is 11 before their speeds' 9"
        MonthAlways Settle "40!" "month and quarter of the day tested in every pairing"
        LimitAlways Settle "40!" "limit tested in execution 2"
        LimitBothSides Settle "40!" "limit tested in execution 3"
        WeatherAlways Settle "40!" "weather tested in every pairing"
        PlanAlways Settle "40!" "plan tested in every pairing"
        TimeUntested Settle "40!" "quarter of the day over 95 taken for factor 0"
        ResultFirst Settle "51!" "length of the result part tested first"
        ResultLonger Settle "51!" "longer result part accepted"
        UnusedRecords Settle "7" "a link to an unused record accepted"
        ZeroLink Settle "5" "a zero link is 2"
        EarlyZero Settle "14" "k = 0 is 5 before the plants' walk"
        NextRead Settle "16" "next link of plant p and measure k tested"
        ChainsAlways Settle "23" "curve and before-quarters walked in every pairing"
        RoundDrop Settle "27" "a falling line's drop rounded down"
        MarksOfUsed Settle "29" "byte 1 untested behind the last used one"
        NoneIsEight Settle "36" "no before-quarter is 8"
        RaisedA Settle "37" "A below 0 raised to 0"
        TenPercentAbove Settle "39" "10 % test fails at equality"
        ListFirst Settle "44" "short list is 13 before the quarters' 9"
        SignedRounding Settle "45" "positive direction rounded down with its sign"
        UsedLinks Settle "47" "only used before-quarters counted as links"
        ZeroedResult Settle "48" "result part zeroed on a refusal"
        RaggedPlace Settle "52" "bytes past the last whole place taken for one"
        RoundEach Settle "false reading" "each quarter rounded by itself"
        DivideFirst Settle "false reading" "A divided by B before multiplying"
        TenPercentPauschal Settle "false reading" "10 % test in Pauschal"
        NegativeZero Settle "false reading" "negative measured power taken for zero"
        WinterToFive Settle "false reading" "winter afternoon ends at 17:00"
        NoCap Settle "cap" "wind Spitz not capped"
        SolarCap Settle "D15" "solar Spitz capped at Pn"
        SolarTenPercent Settle "D14" "10 % test in solar Spitz"
        FloorT Settle "D35" "T below 0 raised to 0"
        BothSidesRequested Settle "D24" "execution 3 treated as 1"
        SumWraps Settle "F3" "sum of numerators kept in 64 bits"
        ListWritten Settle "F9" "list written before the result part is tested"
        NominalSpitz Settle "Pn" "Pn tested only where T uses it"
        BytesTested Settle "85!" "bytes 1 and 2 tested in dated quarters too"
        DateIgnored Settle "85!" "bytes 1 and 2 used in dated quarters"
        DateSigned Settle "84!" "a date of 2^31 or more taken for none"
        DateNarrow Settle "86" "first plus count kept in 32 bits"
        LateAtOnce Settle "87!" "18 for the first quarter on reaching the measure"
        LateBeforeEight Settle "87!" "18 before the quarters' 8"
        LateBeforeNine Settle "87!" "18 before the quarters' 9"
        LateBehindList Settle "87!" "18 behind 13"
        LateSolar Settle "87!" "18 tested in solar only"
        LateFactors Settle "87!" "18 tested in solar Pauschal only"
        LateFirstOnly Settle "02, 1" "18 for the first quarter only"
        LastRefused Settle "02, 1" "quarter 3,506,400 refused"
        LastMore Settle "02, 1" "quarter 3,506,401 accepted"
        DateKept Settle "02, 1" "all quarters take the first one's date"
        MonthKept Settle "02, 1" "all quarters take the first one's month"
        TimeFromOne Settle "02, 1" "number / 96 without minus 1 for day and time"
        ThirtyDays Settle "02, 1" "months of 30 days"
        EveryLeap Settle "93" "29 February in every year"
        NoLeap Settle "93" "29 February in no year"
        NoLeap2000 Settle "93" "no 29 February in 2000"
        OctoberIgnored Settle "02, 3" "every measure judged by the 2020 text"
        OctoberEarly Settle "02, 3" "rules of October 2026 from 937,920 on"
        OctoberLate Settle "02, 3" "rules of October 2026 from 937,922 on"
        OctoberOfQuarter Settle "107!" "each quarter judged by its own number"
        OctoberOfLast Settle "107!" "a measure judged by its last quarter"
        OctoberPastEnd Settle "107!" "a first quarter past 3,506,400 judged by the 2020 text"
        OctoberSigned Settle "107!" "a first quarter of 2^31 or more judged by the 2020 text"
        OlderTested Settle "02, 3" "readings of older measures tested"
        OlderBounded Settle "02, 3" "readings of older measures used"
        UndatedTested Settle "02, 3" "readings of undated measures tested"
        UndatedBounded Settle "02, 3" "readings of undated measures used"
        WindSpitzBounded Settle "106" "readings used in wind Spitz"
        SolarSpitzBounded Settle "106" "readings used in solar Spitz"
        SolarPauschalBounded Settle "106" "readings used in solar Pauschal"
        OtherSpitzBounded Settle "106" "nonavailability used in other Spitz, negative"
        OtherSpitzPositive Settle "106" "nonavailability used in other Spitz, positive"
        SpitzTested Settle "106" "readings tested in wind and other Spitz"
        SolarTested Settle "106" "readings tested in solar"
        WindCapped Settle "105!" "wind Pauschal from October 2026 capped at Pn"
        NonavailableCapped Settle "105!" "nonavailability capped at Pn"
        NonavailableMissing Settle "02, 3" "nonavailability taken for the power that is missing from Pn"
        WindNonavailableOnly Settle "02, 3" "market adjustment of wind not used"
        WindAdjustedOnly Settle "02, 3" "nonavailability of wind not used"
        WindNonavailableUntested Settle "109!" "nonavailability of wind not tested"
        WindAdjustedUntested Settle "109!" "market adjustment of wind not tested"
        OtherUnbounded Settle "02, 3" "nonavailability of other plants not used, negative"
        OtherUntested Settle "109!" "nonavailability of other plants not tested, negative"
        PositiveUnbounded Settle "02, 3" "nonavailability of other plants not used, positive"
        PositiveUntested Settle "109!" "nonavailability of other plants not tested, positive"
        OtherAdjusted Settle "02, 3" "market adjustment of other plants used, negative"
        PositiveAdjusted Settle "02, 3" "market adjustment of other plants used, positive"
        OtherAdjustedTested Settle "109!" "market adjustment of other plants tested"
        OtherExchanged Settle "02, 3" "market adjustment of other plants taken for nonavailability"
        PositiveReference Settle "110" "reference bounded in place of L, positive"
        NegativeLimitation Settle "02, 3" "L bounded in place of the reference, negative"
        PositiveRequested Settle "110" "L bounded in execution 1 only"
        RequestedReadings Settle "109!" "readings tested and used in execution 1 only"
        BoundLarger Settle "02, 3" "the largest in place of the smallest, negative"
        PositiveBoundLarger Settle "02, 3" "the larger of L and nonavailability"
        BoundReplaces Settle "02, 3" "a reading taken even where it isn't the smallest"
        BoundsKept Settle "02, 3" "the first quarter's readings used in all"
        ReadingRaised Settle "108!" "a reading below 0 raised to 0"
        BoundedRaised Settle "108!" "the smallest below 0 raised to 0"
        ReadingBelow Settle "108!" "a reading below 0 refused"
        ReadingUnsigned Settle "108!" "readings taken for unsigned"
        NoneRefused Settle "108!" "a reading of 2,147,483,647 is 9"
        NoneIsZero Settle "108!" "none taken for a power of 0"
        NoneOfTwo Settle "108!" "with one reading of wind none the other isn't used either"
        NoneNearby Settle "108!" "2,147,483,646 taken for none"
        NoneLowest Settle "108!" "-2,147,483,648 taken for none"
        NoneMinusOne Settle "108!" "-1 taken for none"
        NoneZero Settle "108!" "0 taken for none"
        NoneNegative Settle "108!" "a reading below 0 taken for none"
        NoneWide Settle "109!" "a reading out of range taken for none"
        SmallestTested Settle "109!" "a reading tested only where it is the smallest"
        ReadingHighEdge Settle "02, 3" "a reading of 1,000,000,000 refused"
        ReadingHighMore Settle "02, 3" "a reading of 1,000,000,001 accepted"
        ReadingLowEdge Settle "02, 3" "a reading of -1,000,000,000 refused"
        ReadingLowMore Settle "02, 3" "a reading of -1,000,000,001 accepted"
        BothSidesSince Settle "111" "execution 3 treated as 1 from October 2026 on"
        ReadingsBehindLate Settle "107!" "18 before the readings' 9"
        ReadingsBehindList Settle "02, 3" "13 before the readings' 9"
        ReadingsBeforeEight Settle "02, 3" "the readings' 9 before the quarters' 8"
        FullBeforeWalk Append "55!" "16 before 2 and 3"
        FullBeforeOwner Append "55!" "16 before 15"
        ReachedOwner Append "56!" "owner must be on a chain"
        OtherChain Append "56!" "the owner's other chain walked too"
        OwnChain Append "56!" "the owner's own next link walked too"
        NarrowOwner Append "13!" "owner cut to 32 bits"
        HeadByText Append "58" "any record with the text AARB taken for a head"
        AppendLate Append "88" "a measure with a late date is 18"
        LinksInAll Append "60" "bytes 8-15 must be 0 in every kind"
        KeptBytes Append "61" "record U keeps bytes 24-31"
        FirstLink Append "57" "the owner's first link always set"
        NeededOnly Audit "66!" "curve link tested in wind Spitz only"
        KindsFirst Audit "68!" "all kinds before all links"
        TwiceAtOnce Audit "68!" "17 as soon as a record is named twice"
        AuditLate Audit "88" "a measure with a late date is 18"
        UnusedAudited Audit "64" "unused records must have known kinds"
        OrphansIgnored Audit "69" "links of orphans not counted"
        NarrowNumber Show "13!" "number cut to 32 bits"
        UnusedShown Show "63" "records behind U shown"
        TextNeeded Fresh "54" "fresh needs an archive"
        DueSaturday DeliveryDay "89!" "Saturday a working day"
        DueThird DeliveryDay "02, 1" "third working day"
        DueFifth DeliveryDay "02, 1" "fifth working day"
        DueSunday DeliveryDay "90" "a listed weekend day takes a working day away"
        DueTwice DeliveryDay "90" "a day listed twice takes another working day away"
        DueRising DeliveryDay "90" "list read as far as it rises"
        DueOwnMonth DeliveryDay "02, 1" "delivery day in the quarter's own month"
        DueDecember DeliveryDay "92" "no days behind December"
        DueFewRefused DeliveryDay "91" "18 where fewer than four are left"
        DueGoesOn DeliveryDay "02, 1" "counted on in the month after where fewer than four are left"
        DueWeekday DeliveryDay "02, 1" "day 1 taken for a Sunday"
        DueZero DeliveryDay "02, 1" "quarter 0 taken for 1"
        DueLastRefused DeliveryDay "02, 1" "quarter 3,506,400 refused"
        DueLastMore DeliveryDay "02, 1" "quarter 3,506,401 accepted"
        DueNarrow DeliveryDay "02, 1" "quarter cut to 32 bits"
        DueDayFromOne DeliveryDay "02, 1" "number / 96 without minus 1 for the day"
        DueThirtyDays DeliveryDay "02, 1" "months of 30 days"
        DueEveryLeap DeliveryDay "93" "29 February in every year"
        DueNoLeap DeliveryDay "93" "29 February in no year"
        DueNoLeap2000 DeliveryDay "93" "no 29 February in 2000"
        DueWritten DeliveryDay "02, 1" "day set to 0 on a refusal"
        BackEndsAtFirst TakeBack "02, 2" "count ends at the first naming link, so that a second one is left"
        BackLastOfSeveral TakeBack "02, 2" "of several naming links the last one zeroed"
        BackByRecord TakeBack "02, 2" "several naming links of one record counted as one"
        BackNoneAccepted TakeBack "02, 2" "a last record that nothing names taken back"
        BackUnknownCounted TakeBack "96!" "bytes 4-7 of unknown kinds counted"
        BackUnknownLinks TakeBack "96!" "bytes 8-15 of unknown kinds counted"
        BackUnusedCounted TakeBack "96!" "links of unused records counted"
        BackRightKind TakeBack "96!" "only links that should lead to the last record's kind counted"
        BackReached TakeBack "96!" "only links of records reached from the head counted"
        BackFields TakeBack "96!" "bytes 8-15 of kinds 2, 4 and 5 taken for links"
        BackNarrow TakeBack "96!" "only the low 16 bits of a link compared"
        BackHeadUncounted TakeBack "96!" "the head's link not counted"
        BackHeadSecond TakeBack "96!" "the head's bytes 12-15 taken for a link"
        BackHeadUsed TakeBack "96!" "U lowered first, and the head's bytes 4-7 then taken for a link"
        BackNextUncounted TakeBack "96!" "bytes 4-7 not taken for a link"
        BackCurveUncounted TakeBack "96!" "bytes 8-11 of kind 1 not taken for a link"
        BackMeasuresUncounted TakeBack "96!" "bytes 12-15 of kind 1 not taken for a link"
        BackBeforeUncounted TakeBack "96!" "bytes 8-11 of kind 3 not taken for a link"
        BackQuartersUncounted TakeBack "96!" "bytes 12-15 of kind 3 not taken for a link"
        BackOwnUncounted TakeBack "98!" "the last record's own links not counted, as only links above their holder are"
        BackOwnRefused TakeBack "98!" "a last record that names itself is 19, alone too"
        BackOwnVanishes TakeBack "98!" "own links not counted beside another, alone counted"
        BackOwnOnce TakeBack "98!" "several own links of the last record counted as one"
        BackUnknownRefused TakeBack "99!" "19 for a last record of unknown kind"
        BackUnknownThree TakeBack "99!" "3 for a last record of unknown kind"
        BackHoldsTwo TakeBack "100" "the last record's own links tested: 2"
        BackHoldsSeventeen TakeBack "100" "17 if the last record names another one, which nothing would name then"
        BackHoldsNineteen TakeBack "100" "19 if the last record names another one"
        BackRecordKept TakeBack "101" "record U - 1 left in place"
        BackStartOnly TakeBack "101" "only bytes 0-3 of the record cleared"
        BackNextKept TakeBack "101" "bytes 4-7 of the record not cleared"
        BackHeadTaken TakeBack "102" "U = 1 not refused: the head's zero link names record 0, which is cleared"
        BackOneNothing TakeBack "102" "U = 1 is no refusal and changes nothing"
        BackOneIsOne TakeBack "102" "U = 1 is 1"
        BackOneFirst TakeBack "02, 2" "19 for U = 1 before 1 for length and text"
        BackNoneUsed TakeBack "02, 2" "U = 0 is 19"
        BackLinkKept TakeBack "02, 2" "naming link not zeroed"
        BackHandedOn TakeBack "02, 2" "naming link set to the record's own next link"
        BackUsedKept TakeBack "02, 2" "U not lowered"
        BackLowered TakeBack "02, 2" "U lowered first, and record U - 2 taken for the last"
        BackZeroedRefused TakeBack "02, 2" "a naming link zeroed although the call is refused"
        BackUnusedCleared TakeBack "02, 2" "all records from U - 1 on cleared"
        BackSound TakeBack "02, 2" "an archive that audit refuses is 17"
        CentsEach Correction "117!" "each quarter split by itself, cents and remainders added"
        CentsEachRounded Correction "117!" "cents of each quarter rounded down, remainder that of the sum"
        CentsTowardZero Correction "117!" "cents rounded toward zero"
        CentsMachine Correction "117!" "cents rounded toward zero, remainder below 0"
        CentsMagnitude Correction "117!" "cents rounded toward zero, remainder without its sign"
        CentsRemainderSign Correction "117!" "remainder that of the sum without its sign"
        CentsNearest Correction "117!" "cents rounded to the nearest"
        CentsUp Correction "117!" "cents rounded up"
        CentsWholeLower Correction "117!" "whole cents below 0 taken a cent lower, with remainder 1,000,000"
        CentsDoubles Correction "117!" "sum kept in doubles"
        CentsQuotientDouble Correction "117!" "cents by a division of doubles"
        CentsProductNarrow Correction "117!" "products kept in 32 bits"
        CentsSumNarrow Correction "117!" "sum kept in 32 bits"
        CentsKilo Correction "117!" "divided by 1,000"
        CentsGapSwapped Correction "117!" "amount taken off the balanced energy"
        CentsGapAbsolute Correction "117!" "gap without its sign"
        CentsGapRaised Correction "117!" "gap below 0 raised to 0"
        CentsPriceIgnored Correction "117!" "gap not multiplied by the price"
        CentsPriceAbsolute Correction "117!" "price without its sign"
        CentsFirstQuarter Correction "117!" "first quarter alone"
        CentsLastQuarter Correction "117!" "last quarter alone"
        CentsPriceFirst Correction "118!" "21 before 20"
        CentsByPlace Correction "118!" "20 or 21 by the first bad place"
        CentsManyLast Correction "118!" "more than 2,976 quarters is 20 behind 21"
        CentsUnequalLast Correction "118!" "22 behind 20 and 21"
        CentsUnequalBetween Correction "118!" "22 behind 20 and before 21"
        CentsManyFirst Correction "118!" "more than 2,976 quarters is 20 before 22"
        CentsManyTaken Correction "118!" "2,977 quarters taken"
        CentsMostRefused Correction "118!" "2,976 quarters refused"
        CentsEmptyRefused Correction "119!" "three empty lists are 20"
        CentsShortest Correction "118!" "unequal lists taken as far as the shortest one goes"
        CentsPricesUncompared Correction "118!" "only amounts and balanced energies compared for 22"
        CentsBalancedUncompared Correction "118!" "only amounts and prices compared for 22"
        CentsAmountUntested Correction "120" "amounts not tested"
        CentsBalancedUntested Correction "120" "balanced energies not tested"
        CentsPriceUntested Correction "120" "prices not tested"
        CentsPriceLowFree Correction "120" "low end of prices not tested"
        CentsPriceHighFree Correction "120" "high end of prices not tested"
        CentsPriceUnsigned Correction "120" "prices taken for unsigned: 21 below 0"
        CentsAmountHighEdge Correction "120" "an amount of 1,000,000,000 refused"
        CentsAmountHighMore Correction "120" "an amount of 1,000,000,001 taken"
        CentsAmountLowEdge Correction "120" "an amount of -1,000,000,000 refused"
        CentsAmountLowMore Correction "120" "an amount of -1,000,000,001 taken"
        CentsBalancedHighEdge Correction "120" "a balanced energy of 1,000,000,000 refused"
        CentsBalancedHighMore Correction "120" "a balanced energy of 1,000,000,001 taken"
        CentsBalancedLowEdge Correction "120" "a balanced energy of -1,000,000,000 refused"
        CentsBalancedLowMore Correction "120" "a balanced energy of -1,000,000,001 taken"
        CentsPriceHighEdge Correction "120" "a price of 1,000,000 refused"
        CentsPriceHighMore Correction "120" "a price of 1,000,001 taken"
        CentsPriceLowEdge Correction "120" "a price of -1,000,000 refused"
        CentsPriceLowMore Correction "120" "a price of -1,000,001 taken"
        CentsGapTested Correction "120" "gap tested in place of amount and balanced energy"
        CentsAmountNarrow Correction "120" "amounts cut to 32 bits"
        CentsBalancedNarrow Correction "120" "balanced energies cut to 32 bits"
        CentsPriceNarrow Correction "120" "prices cut to 32 bits"
        CentsWritten Correction "121" "cents set to 0 on a refusal"
        CentsRemainderWritten Correction "121" "remainder set to 0 on a refusal"
        PreviewSettleFirst Preview "126!" "settle's refusals before append's where both refuse"
        PreviewPlacesFirst Preview "126!" "4 and 5 before append's refusals"
        PreviewResultFirst Preview "130" "length of the result part tested before append's refusals"
        PreviewResultSecond Preview "130" "length of the result part tested directly behind append's refusals"
        PreviewLongRecord Preview "02, 6" "of a longer record the first 32 bytes taken"
        PreviewListFirst Preview "126!" "a list too short for the quarters filed so far is 13 before append's refusals"
        PreviewUnfiled Preview "126!" "where append refuses, settle without the record"
        PreviewNoFourteen Preview "126!" "14 left out: settle without the record"
        PreviewNoFifteen Preview "126!" "15 left out: settle without the record"
        PreviewNoTwo Preview "126!" "append's 2 left out: settle without the record"
        PreviewNoThree Preview "126!" "append's 3 left out: settle without the record"
        PreviewFullNothing Preview "124!" "16 left out: settle without the record"
        PreviewFullRoom Preview "124!" "16 left out: the copy has one record more"
        PreviewFullLast Preview "124!" "16 behind settle's refusals"
        PreviewFullFirst Preview "124!" "16 directly behind 1"
        PreviewSound Preview "129!" "an archive that audit refuses has audit's number"
        PreviewSoundAfter Preview "129!" "audit's number if audit refuses the archive with the record"
        PreviewStaleLink Preview "129!" "2 if another link is U already"
        PreviewStalePlace Preview "128!" "16 if the bytes of place U aren't 0"
        PreviewOwnMeasure Preview "125" "15 unless the owner is the measure that is settled"
        PreviewQuartersOnly Preview "125" "14 for another kind than 5"
        PreviewBeforeRefused Preview "02, 6" "refused where the measure doesn't settle without the record"
        PreviewRanges Preview "02, 6" "a new quarter with month 0 or above 12 is 9"
        PreviewNarrowOwner Preview "02, 6" "owner cut to 32 bits"
        PreviewNarrowPlant Preview "02, 6" "p cut to 32 bits"
        PreviewNarrowMeasure Preview "02, 6" "k cut to 32 bits"
        PreviewOwnerIgnored Preview "125" "filed under plant p or its measure k, whatever the owner"
        PreviewPlacesIgnored Preview "125" "owner settled if it is a measure, whatever p and k"
        PreviewBefore Preview "02, 6" "settled without the record"
        PreviewPlacesBefore Preview "125" "p and k looked up before the record is filed"
        PreviewOldUsed Preview "02, 6" "links tested against U as it was"
        PreviewFront Preview "02, 6" "a new quarter taken for the first of its chain"
        PreviewLatest Preview "02, 6" "a new before-quarter taken for the first of its chain, the latest"
        PreviewFieldsUntested Preview "02, 6" "fields of the new quarter not tested"
        PreviewLateBefore Preview "02, 6" "18 tested without the new quarter"
        PreviewMostQuarters Preview "02, 6" "a 2,977th quarter accepted"
        PreviewMostBefore Preview "02, 6" "a 97th before-quarter accepted"
        PreviewListBefore Preview "02, 6" "list need only hold the quarters filed so far"
        PreviewResultLonger Preview "130" "longer result part accepted"
        PreviewCountBefore Preview "02, 6" "count without the record"
        PreviewTotalBefore Preview "02, 6" "total without the record"
        PreviewLinksBefore Preview "02, 6" "links without the record"
        PreviewLinkAlways Preview "125" "a link counted for the record, whatever its chain"
        PreviewRoundEach Preview "02, 6" "each quarter rounded by itself"
        PreviewNewAlone Preview "02, 6" "new quarter rounded by itself"
        PreviewNewFirst Preview "02, 6" "new quarter's amount alone given, in the first place"
        PreviewNewPlace Preview "02, 6" "only the new quarter's place written"
        PreviewDifference Preview "02, 6" "what the total grows by given as the total"
        PreviewListZeroed Preview "02, 6" "list zeroed on a refusal of settle"
        PreviewListZeroedAppend Preview "02, 6" "list zeroed on a refusal of append"
        PreviewListBeforeAppend Preview "02, 6" "list filled without the record on a refusal of append"
        PreviewListPartly Preview "02, 6" "a list that is 13 filled as far as it goes"
        PreviewListWritten Preview "130" "list written before the result part is tested"
        PreviewResultZeroed Preview "130" "result part zeroed on a refusal of settle"
        PreviewResultZeroedAppend Preview "130" "result part zeroed on a refusal of append"
        PreviewFiled Preview "127!" "record filed for good"
        PreviewFiledGood Preview "127!" "record filed for good where the measure settles"
        PreviewFiledRefused Preview "127!" "record filed for good where settle refuses"
        PreviewRecordLeft Preview "128!" "record left at its place"
        PreviewLinkLeft Preview "128!" "link to the record left"
        PreviewUsedLeft Preview "128!" "U left raised"
        PreviewZeroed Preview "128!" "place zeroed"
        PreviewZeroedRefused Preview "128!" "place zeroed where settle refuses"
        PreviewKnownBytes Preview "128!" "bytes 24-31 of the place left as the record's"
        PreviewHalf Preview "128!" "bytes 16-31 of the place left as the record's"
        PreviewUnusedZeroed Preview "128!" "all unused records zeroed"
        PreviewTakenBack Preview "128!" "undone by taking back, whether that is refused or not"
        PreviewNineteen Preview "128!" "undone by taking back, and 19 where that is refused"
        PreviewNamesZeroed Preview "129!" "every link to the record zeroed"
        PreviewLinkByte Preview "128!" "only the low byte of the link zeroed"
        PreviewUsedByte Preview "128!" "only the low byte of U set back"
        LowerGoesOn Program "75!" "2 or 3 below a measure leads on to the next measure"
        FixedStore Program "81!" "no more Q lines than 2,048 records"
        SixSkips Program "79" "6 leads on to the next plant"
        LateEnds Program "02, 1" "18 ends the program"
        LongCut Program "71" "longer input cut to 65,536 bytes"
    }
    pages {
        RaggedLength Settle "F 2" "bytes past the last whole record left out of account"
        RecordsMore Settle "F 2" "65,536 records accepted"
        RecordsLess Settle "F 2" "65,535 records refused"
        TextUntested Settle "F 2" "text not tested"
        TextStart Settle "F 2" "first three letters of the text tested"
        UsedNone Settle "F 2" "U = 0 accepted"
        UsedMore Settle "F 2" "U beyond the records taken for all of them"
        HeadLink Settle "F 2" "a bad link to the first plant is 1"
        BigEndian Settle "F 1" "fields read with the highest byte first"
        UnsignedFields Settle "F 1" "fields other than links read as unsigned"
        HolderItself Settle "F 4" "a link to its own holder accepted"
        LinkAtUsed Settle "F 4" "a link to record U accepted if there is one"
        FirstLinkFree Settle "F 4" "a chain's first link not tested against its holder"
        KindBeforeLink Settle "F 4" "3 before 2 at each link"
        KindUntested Settle "F 4" "kinds not tested on the way"
        PlacesFromZero Settle "F 6" "p and k counted from 0"
        PlantsBefore Settle "F 6" "fields of plants before plant p tested"
        MeasuresBefore Settle "F 6" "fields of measures before measure k tested"
        TechnologyMore Settle "F 6" "technology other than 1 and 2 taken for other"
        VariantMore Settle "F 6" "variant other than 1 taken for Pauschal"
        NominalLowEdge Settle "F 6" "Pn of 100,000 refused"
        NominalHighEdge Settle "F 6" "Pn of 1,000,000,000 refused"
        NominalLow Settle "F 6" "Pn below 100,000 accepted"
        NominalHigh Settle "F 6" "Pn above 1,000,000,000 accepted"
        SevenFirst Settle "F 6" "7 before 6"
        DirectionMore Settle "F 6" "direction other than 1 taken for negative"
        ExecutionMore Settle "F 6" "execution other than 1 and 2 taken for 3"
        PositiveWind Settle "F 6" "positive direction accepted for wind"
        PositiveSolar Settle "F 6" "positive direction accepted for solar"
        PositivePauschal Settle "F 6" "positive direction refused in Pauschal"
        CurvePauschal Settle "F 6" "curve tested in wind Pauschal"
        CurveSpeedUntested Settle "F 6" "speeds of curve points not tested"
        CurvePowerUntested Settle "F 6" "powers of curve points not tested"
        CurvePowerSigned Settle "F 6" "curve powers below 0 accepted"
        OnePoint Settle "F 6" "one curve point accepted"
        EqualSpeeds Settle "F 6" "equal speeds accepted"
        FallingSpeeds Settle "F 6" "falling speeds accepted"
        CurveUp Settle "R 3" "curve rounded up"
        CurveNearest Settle "R 3" "curve rounded to the nearest"
        CurveHeldAbove Settle "R 3" "last power kept above the last speed"
        CurveHeldBelow Settle "R 3" "first power kept below the first speed"
        CurveStep Settle "R 3" "power of the point below in place of the line"
        LastPointOff Settle "R 3" "0 at the last point"
        FirstPointOff Settle "R 3" "0 at the first point"
        SumThenRound Settle "R 3" "B rounded once, as a sum"
        SpeedEdge Settle "F 3" "speed of 1,000 refused"
        SpeedMore Settle "F 3" "speed of 1,001 accepted"
        SpeedBelow Settle "F 3" "speed of -1 accepted"
        IrradianceEdge Settle "F 3" "irradiance of 2,000 refused"
        IrradianceMore Settle "F 3" "irradiance of 2,001 accepted"
        IrradianceBelow Settle "F 3" "irradiance of -1 accepted"
        PowerHighEdge Settle "F 3" "power of 1,000,000,000 refused"
        PowerHighMore Settle "F 3" "power of 1,000,000,001 accepted"
        PowerLowEdge Settle "F 3" "power of -1,000,000,000 refused"
        PowerLowMore Settle "F 3" "power of -1,000,000,001 accepted"
        PowerBelow Settle "F 3" "power below 0 refused"
        BeforeMore Settle "F 6" "97 before-quarters accepted"
        BeforeLess Settle "F 6" "96 before-quarters refused"
        BeforeAlways Settle "F 6" "97 before-quarters are 8 in every pairing"
        BeforeNineFirst Settle "F 6" "9 before 8 in before-quarters"
        MarkUntested Settle "F 6" "mark of 2 taken for unmarked"
        MarkAny Settle "F 6" "mark of 2 taken for marked"
        BeforeMeasuredUntested Settle "F 6" "measured power of before-quarters not tested"
        WindWeatherUntested Settle "F 6" "speed of before-quarters not tested"
        SolarWeatherUntested Settle "F 6" "irradiance of before-quarters not tested"
        PauschalAllMarked Settle "F 6" "measured power of all marked ones tested in Pauschal"
        PauschalWeather Settle "F 6" "weather of before-quarters tested in Pauschal"
        SolarUnmarked Settle "F 6" "unmarked before-quarters tested in solar Spitz"
        FirstFive Settle "R 4" "five usable before-quarters taken"
        FirstThree Settle "R 4" "three usable before-quarters taken"
        LastFour Settle "R 4" "last four usable ones of the chain taken"
        FourMarked Settle "R 4" "four marked ones taken, then the 10 % test"
        FourRecords Settle "R 4" "four first ones taken, then marks and 10 % test"
        AdjacentFour Settle "R 4" "the four must be adjacent"
        WindUnmarked Settle "R 4" "unmarked ones taken in wind Spitz"
        TenPercentLeftOut Settle "R 4" "no 10 % test in wind Spitz"
        TenPercentNarrow Settle "R 4" "10 x measured kept in 32 bits"
        TenPercentRounded Settle "R 4" "10 % of Pn rounded down"
        OtherFourForB Settle "R 4" "B over the first four marked ones without the 10 % test"
        PauschalLast Settle "R 4" "last marked one taken in Pauschal"
        PauschalUnmarked Settle "R 4" "first one taken in Pauschal, marked or not"
        NoneMarkedZero Settle "F 6" "none marked in Pauschal: P0 is 0"
        SolarNoneMarked Settle "F 6" "none marked in solar Spitz: 12"
        SolarFour Settle "R 4" "four marked ones taken in solar Spitz"
        SolarFirst Settle "R 4" "first marked one taken in solar Spitz"
        SolarAll Settle "R 4" "unmarked ones taken in solar Spitz"
        SolarNeedsFour Settle "F 6" "four marked ones needed in solar Spitz"
        MeansRounded Settle "R 4" "means rounded down in place of sums"
        ThreeEnough Settle "F 6" "three usable ones are enough"
        TwelveBeforeEleven Settle "F 6" "12 before 11"
        TwelveUntested Settle "F 6" "B = 0 in wind Spitz: T is 0"
        TwelveIfCalm Settle "F 6" "B = 0 refused only where every speed is 0"
        SolarTwelveUntested Settle "F 6" "B = 0 in solar Spitz: T is 0"
        TwelveLate Settle "F 6" "12 behind the tests of the quarters"
        NoQuarters Settle "F 6" "no quarter accepted"
        QuartersMore Settle "F 6" "2,977 quarters accepted"
        QuartersLess Settle "F 6" "2,976 quarters refused"
        QuarterNineFirst Settle "F 6" "9 before 8 in quarters"
        MeasuredUntested Settle "F 6" "measured power of quarters not tested"
        LimitUntested Settle "F 6" "limit not tested"
        LimitIfChosen Settle "F 6" "limit tested only where it is L"
        PlanUntested Settle "F 6" "planned power not tested"
        QuarterSpeedUntested Settle "F 6" "speed of quarters not tested"
        QuarterIrradianceUntested Settle "F 6" "irradiance of quarters not tested"
        WeatherWindPauschal Settle "F 6" "weather of quarters tested in wind Pauschal"
        WeatherOtherSpitz Settle "F 6" "weather of quarters tested in other Spitz"
        MonthMore Settle "F 6" "month above 12 taken for winter"
        MonthZero Settle "F 6" "month 0 taken for winter"
        MonthEdge Settle "F 3" "month 12 refused"
        TimeEdge Settle "F 3" "quarter of the day 95 refused"
        TimeAtZero Settle "F 6" "month not tested where the factor is 0"
        FirstQuarterOnly Settle "F 6" "fields of the first quarter alone tested"
        LimitTaken Settle "R 2" "limit always taken in execution 1"
        PositiveLarger Settle "R 2" "larger one taken in the positive direction"
        NegativeSmaller Settle "R 2" "smaller one taken in the negative direction"
        ToleratedRequested Settle "R 2" "execution 2 treated as 1"
        BothSidesLimit Settle "R 2" "limit taken in execution 3"
        RaisedL Settle "R 2" "L below 0 raised to 0"
        CapOnT Settle "R 4" "t capped at Pn in place of T"
        CapCurve Settle "R 4" "T capped at the curve's largest power"
        CapWindPauschal Settle "R 4" "wind Pauschal capped at Pn"
        CapOtherPauschal Settle "R 4" "other Pauschal capped at Pn"
        CapPlan Settle "R 4" "plan capped at Pn"
        RaisedPlan Settle "R 4" "plan below 0 raised to 0"
        RaisedPauschal Settle "R 4" "P0 below 0 raised to 0"
        WholeT Settle "R 4" "T rounded down to whole W"
        PlanInPauschal Settle "R 4" "plan taken in other Pauschal"
        LimitForPlan Settle "R 4" "plan read where the limit stands"
        MarchWinter Settle "R 4" "March in winter"
        OctoberWinter Settle "R 4" "October in winter"
        FebruarySummer Settle "R 4" "February in summer"
        NovemberSummer Settle "R 4" "November in summer"
        SeasonsSwapped Settle "R 4" "seasons swapped"
        SummerTime Settle "R 4" "clock an hour ahead from April to September"
        Summer24Early Settle "R 4" "summer morning from quarter 23"
        Summer24Late Settle "R 4" "summer morning from quarter 25"
        Summer36Early Settle "R 4" "summer noon from quarter 35"
        Summer36Late Settle "R 4" "summer noon from quarter 37"
        Summer60Early Settle "R 4" "summer afternoon from quarter 59"
        Summer60Late Settle "R 4" "summer afternoon from quarter 61"
        Summer76Early Settle "R 4" "summer evening from quarter 75"
        Summer76Late Settle "R 4" "summer evening from quarter 77"
        Winter36Early Settle "R 4" "winter morning from quarter 35"
        Winter36Late Settle "R 4" "winter morning from quarter 37"
        Winter40Early Settle "R 4" "winter noon from quarter 39"
        Winter40Late Settle "R 4" "winter noon from quarter 41"
        Winter56Early Settle "R 4" "winter afternoon from quarter 55"
        Winter56Late Settle "R 4" "winter afternoon from quarter 57"
        Winter67Early Settle "R 4" "winter evening from quarter 66"
        BelowZero Settle "R 5" "a difference the other way taken off"
        Absolute Settle "R 5" "a difference the other way counted"
        RoundUp Settle "R 6" "sums rounded up"
        RoundNearest Settle "R 6" "sums rounded to the nearest"
        RemainderLost Settle "R 6" "remainder dropped where a magnitude is 0"
        RemainderWhole Settle "R 6" "remainder cut to quarters of a Wh"
        PlusPositive Settle "R 6" "no minus in the positive direction"
        MinusNegative Settle "R 6" "minus in the negative direction"
        PlusTotal Settle "F 7" "total without its sign"
        TotalNearest Settle "R 6" "total rounded to the nearest on its own"
        ZeroCounted Settle "F 6" "zero links counted"
        PlacesUncounted Settle "F 6" "one link counted for the plant and one for the measure"
        CurveUncounted Settle "F 6" "curve points not counted"
        BeforeCounted Settle "F 6" "before-quarters counted in every pairing"
        BeforeUncounted Settle "F 6" "before-quarters not counted in Pauschal"
        LaterZeroed Settle "F 6" "later places zeroed"
        LongerList Settle "F 6" "a longer list is 13"
        ListUntested Settle "F 6" "a short list filled as far as it goes"
        ListBeforeEight Settle "F 6" "an empty list is 13 at once"
        DateNeeded Settle "F 6" "an undated measure is 18"
        BytesAgree Settle "F 6" "9 where a dated quarter's bytes 1 and 2 don't say its date"
        LatePauschal Settle "F 6" "18 tested in Pauschal only"
        DateBigEndian Settle "F 3" "first quarter read with the highest byte first"
        DateOfLast Settle "F 3" "first quarter's number taken for the last one's"
        DateUtc Settle "R 13" "numbers counted in UTC, clock an hour ahead of it"
        DateSummerTime Settle "R 13" "clock an hour ahead from April to September in dated quarters"
        DateOwnMonth Settle "R 13" "dated quarters keep their own month"
        DateOwnTime Settle "R 13" "dated quarters keep their own quarter of the day"
        FreshKeeps Fresh "F 8" "other bytes kept"
        FreshNone Fresh "F 8" "U = 0 written"
        FreshAll Fresh "F 8" "U = all records written"
        FreshRagged Fresh "F 8" "any length that is not 0 accepted"
        FreshLonger Fresh "F 8" "65,536 records accepted"
        LongRecord Append "F 9" "a longer record cut to 32 bytes"
        ShortRecord Append "F 9" "a shorter record filled with zeros"
        KindMore Append "F 9" "unknown kind is 15"
        NextUntested Append "F 9" "bytes 4-7 not tested"
        PlantLinksUntested Append "F 9" "bytes 8-15 not tested in kind 1"
        MeasureLinksUntested Append "F 9" "bytes 8-15 not tested in kind 3"
        SecondUntested Append "F 9" "bytes 12-15 not tested in kinds 1 and 3"
        MoreTested Append "F 9" "bytes 16-19 tested too in kinds 1 and 3"
        OwnerFirst Append "F 9" "15 before 14"
        OwnerUnused Append "F 9" "owner behind U accepted if it fits"
        OwnerKind Append "F 9" "a quarter filed under a plant"
        PointUnderMeasure Append "F 9" "a curve point filed under a measure"
        PlantAnywhere Append "F 9" "a plant filed under a plant"
        AppendWalk Append "F 9" "chain not tested on the way"
        WalkBeforeOwner Append "F 9" "2 and 3 of the plants' chain before 15"
        FullUntested Append "F 9" "16 not tested"
        FullAtOnce Append "F 9" "16 directly behind 1"
        FullOneLess Append "F 9" "16 with one unused record left"
        UsedKept Append "F 9" "U not raised"
        LinkKept Append "F 9" "last link not set"
        AtFront Append "F 9" "filed at the front of its chain"
        OtherLink Append "F 9" "measures and quarters filed at bytes 8-11"
        UnusedZeroed Append "F 9" "records behind the new one zeroed"
        AppendCount Append "F 9" "a 97th before-quarter is 8"
        AppendTechnology Append "F 9" "a curve point under another plant than wind Spitz is 15"
        AppendRanges Append "F 9" "a quarter with month 0 or above 12 is 9"
        ShownAtUsed Show "F 10" "record U shown if there is one"
        HeadHidden Show "F 10" "the head not shown"
        KnownKinds Show "F 10" "unknown kinds not shown"
        ShownOnOne Show "F 10" "records shown whatever the head says"
        TwiceAllowed Audit "F 11" "a record named twice accepted"
        OrphansAllowed Audit "F 11" "a record named by none accepted"
        HeadUntested Audit "F 11" "the head's link not tested"
        HeadUncounted Audit "F 11" "the head's link names nothing"
        HeadLast Audit "F 11" "the head's link tested last"
        UnknownKinds Audit "F 11" "unknown kinds passed over"
        LinksBackward Audit "F 11" "links in falling byte order"
        ReachedOnly Audit "F 11" "links of records that nothing names not tested"
        OrphanAtOnce Audit "F 11" "17 on reaching a record that nothing names"
        NextKindFree Audit "F 11" "kind not tested at next links"
        BothLinks Audit "F 11" "bytes 8-15 tested in every kind"
        SharedNext Audit "F 11" "next links name nothing"
        DueFriday DeliveryDay "R 13" "day 1 taken for a Friday"
        DueMonday DeliveryDay "R 13" "day 1 taken for a Monday"
        DueEveryDay DeliveryDay "R 13" "every day a working day"
        DueFourthDay DeliveryDay "R 13" "fourth day of the month, or the next working day"
        DueDaysOn DeliveryDay "R 13" "fourth working day after the quarter's own day"
        DueFromZero DeliveryDay "R 13" "days numbered from 0"
        DueAsQuarter DeliveryDay "F 16" "number of the day's first quarter given"
        DueDayOfMonth DeliveryDay "F 16" "day of the month given"
        DueFewLast DeliveryDay "F 16" "last working day given where fewer than four are left"
        DueFewKept DeliveryDay "F 16" "day left as it was where fewer than four are left"
        DueListQuarters DeliveryDay "F 16" "list taken for quarters"
        DueListFirst DeliveryDay "F 16" "first day of the list read alone"
        DueListMonth DeliveryDay "F 16" "31 days of the list read"
        DueListEnds DeliveryDay "F 16" "list read up to a 0"
        DueListNarrow DeliveryDay "F 16" "days of the list cut to 16 bits"
        DueListTested DeliveryDay "F 16" "a listed 0 or a day past January 2100 is 18"
        BackAllOfSeveral TakeBack "F 17" "several naming links all zeroed"
        BackKindZero TakeBack "F 17" "kind 0 taken for a known kind with a link in bytes 4-7"
        BackKindSix TakeBack "F 17" "kind 6 taken for a known kind with a link in bytes 4-7"
        BackFieldsPoint TakeBack "F 17" "bytes 8-15 of kind 2 taken for links"
        BackFieldsQuarters TakeBack "F 17" "bytes 8-15 of kinds 4 and 5 taken for links"
        BackDates TakeBack "F 17" "bytes 16-19 of kinds 1 and 3 taken for a link"
        BackNarrowThree TakeBack "F 17" "only the low 24 bits of a link compared"
        BackNextOfOwners TakeBack "F 17" "bytes 4-7 of kinds 1 and 3 not taken for a link"
        BackNextOfOthers TakeBack "F 17" "bytes 4-7 of kinds 2, 4 and 5 not taken for a link"
        BackKinds TakeBack "F 17" "3 for an unknown kind of any used record"
        BackQuartersOnly TakeBack "F 17" "19 unless the last record is a quarter"
        BackKindOnly TakeBack "F 17" "only byte 0 of the record cleared"
        BackHalf TakeBack "F 17" "bytes 16-31 of the record not cleared"
        BackKnownBytes TakeBack "F 17" "bytes 24-31 of the record not cleared"
        BackKindKept TakeBack "F 17" "byte 0 of the record not cleared"
        BackTwoRefused TakeBack "F 17" "U = 2 is 19"
        BackTextLast TakeBack "F 17" "19 before 1 for the text"
        BackAtUsed TakeBack "F 17" "record U taken for the last"
        BackLowByte TakeBack "F 17" "only the low byte of the naming link zeroed"
        BackBorrow TakeBack "F 17" "only the low byte of U lowered"
        BackClearedRefused TakeBack "F 17" "record U - 1 cleared although the call is refused with 19"
        BackLoweredRefused TakeBack "F 17" "U lowered although the call is refused with 19"
        BackSoundNineteen TakeBack "F 17" "an archive that audit refuses is 19"
        BackAudited TakeBack "F 17" "an archive that audit refuses has audit's number"
        BackNextOfPlants TakeBack "F 17" "bytes 4-7 of kind 1 not taken for a link"
        BackNextOfPoints TakeBack "F 17" "bytes 4-7 of kind 2 not taken for a link"
        BackNextOfBefores TakeBack "F 17" "bytes 4-7 of kind 4 not taken for a link"
        BackPointPower TakeBack "F 17" "bytes 12-15 of kind 2 taken for a link"
        BackBeforeFree TakeBack "F 17" "bytes 12-15 of kind 4 taken for a link"
        BackNominal TakeBack "F 17" "bytes 16-19 of kind 1 taken for a link"
        CentsLastRemainder Correction "R 15" "each quarter split by itself, the last one's remainder given"
        CentsAway Correction "R 15" "cents rounded away from zero"
        CentsEuro Correction "R 15" "divided by 100,000,000"
        CentsKilowattHours Correction "R 15" "gap rounded down to whole kWh before it is multiplied"
        CentsGapAdded Correction "R 15" "balanced energy added to the amount"
        CentsBalancedIgnored Correction "R 15" "balanced energy not taken off"
        CentsFirstPrice Correction "R 15" "first price taken for all quarters"
        CentsSumsMultiplied Correction "R 15" "sum of the gaps multiplied by the sum of the prices"
        CentsLastLeftOut Correction "R 15" "last quarter left out"
        CentsProductRaised Correction "R 15" "products below 0 raised to 0"
        CentsGapTestedToo Correction "F 18" "a gap beyond 1,000,000,000 is 20 too"
        CentsAmountLowFree Correction "F 18" "low end of amounts not tested"
        CentsAmountHighFree Correction "F 18" "high end of amounts not tested"
        CentsBalancedLowFree Correction "F 18" "low end of balanced energies not tested"
        CentsBalancedHighFree Correction "F 18" "high end of balanced energies not tested"
        CentsAmountUnsigned Correction "F 18" "amounts taken for unsigned: 20 below 0"
        CentsBalancedUnsigned Correction "F 18" "balanced energies taken for unsigned: 20 below 0"
        CentsPriceAsEnergy Correction "F 18" "prices allowed as far as energies"
        CentsEnergyAsPrice Correction "F 18" "energies allowed as far as prices"
        CentsFirstTested Correction "F 18" "numbers of the first quarter alone tested"
        CentsLastUntested Correction "F 18" "numbers of the last quarter not tested"
        CentsPriceTwenty Correction "F 18" "a price out of range is 20"
        CentsBalancedTwentyOne Correction "F 18" "a balanced energy out of range is 21"
        CentsUnequalTwenty Correction "F 18" "unequal lists are 20"
        CentsManyTwentyTwo Correction "F 18" "more than 2,976 quarters is 22"
        CentsManyEight Correction "F 18" "more than 2,976 quarters is 8"
        CentsNine Correction "F 18" "a number out of range is 9"
        CentsAmountUncompared Correction "F 18" "only balanced energies and prices compared for 22"
        CentsCommonFirst Correction "F 18" "20 and 21 over the places that all lists have, then 22"
        CentsMissingZero Correction "F 18" "missing places of shorter lists taken for 0"
        CentsOnePrice Correction "F 18" "a single price taken for all quarters"
        CentsNoBalanced Correction "F 18" "an empty list of balanced energies taken for zeros"
        CentsLessRefused Correction "F 18" "2,975 quarters refused"
        CentsThirtyDays Correction "F 18" "more than 2,880 quarters refused"
        CentsAnyCount Correction "F 18" "any number of quarters taken"
        CentsEmptyKept Correction "F 18" "cents and remainder left as they were for three empty lists"
        CentsSumWritten Correction "F 18" "cents and remainder written where a price is 21"
        FiveEnds Program "F 12" "5 ends the program"
        FiveLine Program "F 12" "a line for 5"
        FourLine Program "F 12" "a line for 4"
        OtherEnds Program "F 12" "every refusal ends the program"
        TwoGoesOn Program "F 12" "2 leads on to the next measure"
        ThreeGoesOn Program "F 12" "3 leads on to the next measure"
        SevenSkips Program "F 12" "7 leads on to the next plant"
        TwoSkips Program "F 12" "2 below a measure leads on to the next plant"
        FirstMeasure Program "F 12" "first measure of each plant alone"
        FirstPlant Program "F 12" "first plant alone"
        MeasureKept Program "F 12" "k not set back to 1"
        CarryAcross Program "R 6" "remainder carried to the next measure"
        ZeroLeftOut Program "F 12" "no Q line for an amount of 0"
        QuarterFromZero Program "F 12" "quarters counted from 0"
        MinusZero Program "F 12" "-0 in the positive direction"
        InputLess Program "F 12" "65,536 bytes refused"
        InputMore Program "F 12" "longer input accepted"
        NoPlantLine Program "F 12" "E 0 0 1 where there is no plant"
        BrokenPlant Program "F 12" "E p 0 for a broken link to plant p"
    }
}

/// U of a head that is not refused.
fn head(slip: Slip, archive: &[u8]) -> Result<u64, Refusal> {
    let all = (archive.len() / RECORD) as u64;
    let most = match slip {
        Slip::RecordsMore => MOST_RECORDS + 1,
        Slip::RecordsLess => MOST_RECORDS - 1,
        _ => MOST_RECORDS,
    };
    let whole = archive.len() % RECORD == 0 || slip == Slip::RaggedLength;
    test(whole && (1..=most as u64).contains(&all), 1)?;
    let head = record(archive, 0);
    let text = match slip {
        Slip::TextUntested => 0,
        Slip::TextStart => 3,
        _ => 4,
    };
    test(head[..text] == b"AARB"[..text], 1)?;
    let used = match slip {
        Slip::UsedMore => link(head, 4).min(all),
        _ => link(head, 4),
    };
    let least = if slip == Slip::UsedNone { 0 } else { 1 };
    test((least..=all).contains(&used), 1)?;
    if slip == Slip::HeadLink {
        test(link(head, FIRST) < used, 1)?;
    }
    Ok(used)
}

struct Reader<'a> {
    archive: &'a [u8],
    used: u64,
    slip: Slip,
}

impl Reader<'_> {
    fn link(&self, number: u64, at: usize) -> u64 {
        link(record(self.archive, number), at)
    }

    fn field(&self, record: &[u8], at: usize) -> i128 {
        match self.slip {
            Slip::BigEndian => {
                i128::from(i32::from_be_bytes([record[at], record[at + 1], record[at + 2], record[at + 3]]))
            }
            Slip::UnsignedFields => i128::from(link(record, at)),
            _ => field(record, at),
        }
    }

    fn above(&self, owner: u64, holder: u64, to: u64) -> Result<(), Refusal> {
        let low = match self.slip {
            Slip::OwnerNumber => owner + 1,
            Slip::HolderItself => holder,
            Slip::FirstLinkFree if owner == holder => 1,
            _ => holder + 1,
        };
        let all = (self.archive.len() / RECORD) as u64;
        let high = match self.slip {
            Slip::UnusedRecords => all,
            Slip::LinkAtUsed => all.min(self.used + 1),
            _ => self.used,
        };
        test((low..high).contains(&to), 2)
    }

    fn kind(&self, to: u64, kind: u8) -> Result<(), Refusal> {
        test(self.slip == Slip::KindUntested || record(self.archive, to)[0] == kind, 3)
    }

    /// Up to `most` records of a chain.
    fn chain(&self, owner: u64, at: usize, kind: u8, most: u64) -> Result<Vec<u64>, Refusal> {
        let mut numbers = Vec::new();
        let (mut holder, mut to) = (owner, self.link(owner, at));
        let apart = self.slip == Slip::LinksThenKinds;
        let all = (self.archive.len() / RECORD) as u64;
        while to != 0 && (numbers.len() as u64) < most {
            if self.slip == Slip::KindBeforeLink && to < all {
                self.kind(to, kind)?;
            }
            self.above(owner, holder, to)?;
            if !apart {
                self.kind(to, kind)?;
            }
            numbers.push(to);
            if numbers.len() as u64 > all {
                return Err(ENDLESS);
            }
            (holder, to) = (to, self.link(to, NEXT));
        }
        if apart {
            numbers.iter().try_for_each(|&number| self.kind(number, kind))?;
        }
        Ok(numbers)
    }

    /// A chain of settle below its plant or measure.
    fn lower(&self, owner: u64, at: usize, kind: u8, limit: u64) -> Result<Vec<u64>, Refusal> {
        if self.slip == Slip::ZeroLink && self.link(owner, at) == 0 {
            return Err(2);
        }
        self.chain(owner, at, kind, if self.slip == Slip::StopAtLimit { limit + 1 } else { u64::MAX })
    }

    /// The records of a chain up to a place.
    fn place(&self, owner: u64, at: usize, kind: u8, wanted: u64, missing: Refusal) -> Result<Vec<u64>, Refusal> {
        if wanted == 0 || (self.slip == Slip::EarlyMissing && wanted >= self.used) {
            return Err(missing);
        }
        let numbers = self.chain(owner, at, kind, wanted)?;
        if (numbers.len() as u64) < wanted {
            return Err(missing);
        }
        let found = numbers[numbers.len() - 1];
        let next = self.link(found, NEXT);
        if self.slip == Slip::NextRead && next != 0 {
            self.above(owner, found, next)?;
            self.kind(next, kind)?;
        }
        Ok(numbers)
    }

    /// Refusal 6.
    fn plant(&self, plant: &[u8]) -> Result<(Pairing, i128), Refusal> {
        let technology = match plant[1] {
            1 | 2 => plant[1],
            _ if self.slip == Slip::TechnologyMore => 3,
            other => other,
        };
        let variant = match plant[2] {
            1 => 1,
            _ if self.slip == Slip::VariantMore => 2,
            other => other,
        };
        let nominal = self.field(plant, 16);
        let pairing = Pairing::of(technology, variant).ok_or(6u32)?;
        let low = match self.slip {
            Slip::NominalLowEdge => 100_001,
            Slip::NominalLow => 0,
            _ => *NOMINAL.start(),
        };
        let high = match self.slip {
            Slip::NominalHighEdge => 999_999_999,
            Slip::NominalHigh => i128::MAX,
            _ => *NOMINAL.end(),
        };
        let needed = self.slip != Slip::NominalSpitz || matches!(pairing, Pairing::WindSpitz | Pairing::SolarPauschal);
        test((low..=high).contains(&nominal) || !needed, 6)?;
        Ok((pairing, nominal))
    }

    /// Refusal 7: gives whether the direction is positive, and the execution.
    fn terms(&self, measure: &[u8], technology: u8, variant: u8) -> Result<(bool, u8), Refusal> {
        let direction = match measure[1] {
            1 => 1,
            _ if self.slip == Slip::DirectionMore => 2,
            other => other,
        };
        let execution = match measure[2] {
            1 | 2 => measure[2],
            _ if self.slip == Slip::ExecutionMore => 3,
            other => other,
        };
        test((1..=2).contains(&direction) && (1..=3).contains(&execution), 7)?;
        let allowed = match technology {
            1 => self.slip == Slip::PositiveWind,
            2 => self.slip == Slip::PositiveSolar,
            _ => variant == 1 || self.slip != Slip::PositivePauschal,
        };
        test(direction == 2 || allowed, 7)?;
        Ok((direction == 1, execution))
    }

    fn power(&self, value: i128) -> bool {
        let low = match self.slip {
            Slip::PowerLowEdge => -999_999_999,
            Slip::PowerLowMore => -1_000_000_001,
            Slip::PowerBelow => 0,
            _ => *POWER.start(),
        };
        let high = match self.slip {
            Slip::PowerHighEdge => 999_999_999,
            Slip::PowerHighMore => 1_000_000_001,
            _ => *POWER.end(),
        };
        (low..=high).contains(&value)
    }

    fn speed(&self, value: i128) -> bool {
        match self.slip {
            Slip::SpeedEdge => (0..=999).contains(&value),
            Slip::SpeedMore => (0..=1_001).contains(&value),
            Slip::SpeedBelow => (-1..=1_000).contains(&value),
            _ => SPEED.contains(&value),
        }
    }

    fn irradiance(&self, value: i128) -> bool {
        match self.slip {
            Slip::IrradianceEdge => (0..=1_999).contains(&value),
            Slip::IrradianceMore => (0..=2_001).contains(&value),
            Slip::IrradianceBelow => (-1..=2_000).contains(&value),
            _ => IRRADIANCE.contains(&value),
        }
    }
}

fn test(good: bool, number: Refusal) -> Result<(), Refusal> {
    if good {
        Ok(())
    } else {
        Err(number)
    }
}

/// The curve's value at a speed as a fraction, and rounded.
fn slipped_power(slip: Slip, curve: &[(i128, i128)], speed: i128) -> ((i128, i128), i128) {
    let (first, last) = match (curve.first(), curve.last()) {
        (Some(&first), Some(&last)) => (first, last),
        _ => return ((0, 1), 0),
    };
    for pair in curve.windows(2) {
        let ((low, from), (high, to)) = (pair[0], pair[1]);
        if low < speed && speed < high {
            let (over, under) = (from * (high - speed) + to * (speed - low), high - low);
            let rounded = match slip {
                Slip::RoundDrop if to < from => from - (from - to) * (speed - low) / under,
                Slip::CurveUp => (over + under - 1).div_euclid(under),
                Slip::CurveNearest => (2 * over + under).div_euclid(2 * under),
                Slip::CurveStep => from,
                _ => over.div_euclid(under),
            };
            return ((over, under), rounded);
        }
    }
    let power = match slip {
        Slip::CurveHeldAbove if speed > last.0 => last.1,
        Slip::CurveHeldBelow if speed < first.0 => first.1,
        Slip::LastPointOff if speed == last.0 => 0,
        Slip::FirstPointOff if speed == first.0 => 0,
        _ => curve_power(curve, speed),
    };
    ((power, 1), power)
}

/// Factors of solar Pauschal.
fn slipped_factor(slip: Slip, month: u8, quarter: u8) -> i128 {
    let summer = match (slip, month) {
        (Slip::MarchWinter, 3) | (Slip::OctoberWinter, 10) => false,
        (Slip::FebruarySummer, 2) | (Slip::NovemberSummer, 11) => true,
        (Slip::SeasonsSwapped, _) => !(3..=10).contains(&month),
        _ => (3..=10).contains(&month),
    };
    let quarter = match slip {
        Slip::SummerTime if (4..=9).contains(&month) => quarter + 4,
        _ => quarter,
    };
    let (mut edges, factors) = if summer {
        ([24, 36, 60, 76], [0, 2_456, 6_189, 2_456, 0])
    } else {
        ([36, 40, 56, 67], [0, 2_796, 5_030, 2_796, 0])
    };
    match slip {
        Slip::Summer24Early if summer => edges[0] = 23,
        Slip::Summer24Late if summer => edges[0] = 25,
        Slip::Summer36Early if summer => edges[1] = 35,
        Slip::Summer36Late if summer => edges[1] = 37,
        Slip::Summer60Early if summer => edges[2] = 59,
        Slip::Summer60Late if summer => edges[2] = 61,
        Slip::Summer76Early if summer => edges[3] = 75,
        Slip::Summer76Late if summer => edges[3] = 77,
        Slip::Winter36Early if !summer => edges[0] = 35,
        Slip::Winter36Late if !summer => edges[0] = 37,
        Slip::Winter40Early if !summer => edges[1] = 39,
        Slip::Winter40Late if !summer => edges[1] = 41,
        Slip::Winter56Early if !summer => edges[2] = 55,
        Slip::Winter56Late if !summer => edges[2] = 57,
        Slip::Winter67Early if !summer => edges[3] = 66,
        Slip::WinterToFive if !summer => edges[3] = 68,
        _ => {}
    }
    factors[edges.iter().filter(|&&edge| quarter >= edge).count()]
}

fn slipped_days(slip: Slip, year: u64, month: u8) -> u64 {
    match (slip, month) {
        (Slip::ThirtyDays | Slip::DueThirtyDays, _) => 30,
        (Slip::EveryLeap | Slip::DueEveryLeap, 2) => 29,
        (Slip::NoLeap | Slip::DueNoLeap, 2) => 28,
        (Slip::NoLeap2000 | Slip::DueNoLeap2000, 2) if year == 2000 => 28,
        _ => days_of_month(year, month),
    }
}

/// Year, month and first day of the month of a day. Wild days are taken back by cycles of 400 years.
fn slipped_month(slip: Slip, day: u64) -> (u64, u8, u64) {
    let day = (day - 1) % 146_097 + 1;
    let (mut year, mut month, mut first) = (2000, 1, 1);
    loop {
        let days: u64 = (1..=12).map(|month| slipped_days(slip, year, month)).sum();
        if day < first + days {
            break;
        }
        first += days;
        year += 1;
    }
    while day >= first + slipped_days(slip, year, month) {
        first += slipped_days(slip, year, month);
        month += 1;
    }
    (year, month, first)
}

/// Month and quarter of the day of a quarter's number.
fn slipped_time(slip: Slip, number: u64) -> (u8, u8) {
    let passed = match slip {
        Slip::TimeFromOne => number,
        Slip::DateUtc => number + 3,
        _ => number - 1,
    };
    let month = slipped_month(slip, passed / 96 + 1).1;
    match slip {
        Slip::DateSummerTime if (4..=9).contains(&month) => (month, ((passed + 4) % 96) as u8),
        _ => (month, (passed % 96) as u8),
    }
}

/// The readings of request 3 in a measure's quarters, as one slip sees them: nonavailability, then market adjustment.
struct Readings {
    slip: Slip,
    pairing: Pairing,
    positive: bool,
    execution: u8,
    nominal: i128,
    date: u64,
    count: u64,
}

impl Readings {
    /// Whether quarter `at` is judged by the rules of October 2026.
    fn october(&self, at: usize) -> bool {
        let from = match self.slip {
            Slip::OctoberEarly => OCTOBER - 1,
            Slip::OctoberLate => OCTOBER + 1,
            _ => OCTOBER,
        };
        let number = match self.slip {
            Slip::OctoberOfQuarter if self.date != 0 => self.date + at as u64,
            Slip::OctoberOfLast if self.date != 0 => self.date + self.count - 1,
            Slip::OctoberIgnored => 0,
            Slip::OctoberPastEnd if self.date > LAST.0 => 0,
            Slip::OctoberSigned if self.date >= 1 << 31 => 0,
            _ => self.date,
        };
        number >= from
    }

    /// Which ones the pairing has from October 2026 on.
    fn own(&self) -> [bool; 2] {
        [matches!(self.pairing, Pairing::WindPauschal | Pairing::OtherPauschal), self.pairing == Pairing::WindPauschal]
    }

    fn tested(&self, at: usize) -> [bool; 2] {
        let (october, wind) = (self.october(at), self.pairing == Pairing::WindPauschal);
        match self.slip {
            Slip::OlderTested if self.date != 0 => self.own(),
            Slip::UndatedTested if self.date == 0 => self.own(),
            _ if !october => [false; 2],
            Slip::SpitzTested if self.pairing == Pairing::WindSpitz => [true; 2],
            Slip::SpitzTested if self.pairing == Pairing::OtherSpitz => [true, false],
            Slip::SolarTested if matches!(self.pairing, Pairing::SolarSpitz | Pairing::SolarPauschal) => [true; 2],
            Slip::RequestedReadings if self.execution != 1 => [false; 2],
            Slip::WindNonavailableUntested if wind => [false, true],
            Slip::WindAdjustedUntested if wind => [true, false],
            Slip::OtherUntested if !wind && !self.positive => [false; 2],
            Slip::PositiveUntested if self.positive => [false; 2],
            Slip::OtherAdjustedTested if self.pairing == Pairing::OtherPauschal => [true; 2],
            _ => self.own(),
        }
    }

    fn used(&self, at: usize) -> [bool; 2] {
        let (october, other) = (self.october(at), self.pairing == Pairing::OtherPauschal);
        match self.slip {
            Slip::OlderBounded if self.date != 0 => self.own(),
            Slip::UndatedBounded if self.date == 0 => self.own(),
            _ if !october => [false; 2],
            Slip::WindSpitzBounded if self.pairing == Pairing::WindSpitz => [true; 2],
            Slip::SolarSpitzBounded if self.pairing == Pairing::SolarSpitz => [true; 2],
            Slip::SolarPauschalBounded if self.pairing == Pairing::SolarPauschal => [true; 2],
            Slip::OtherSpitzBounded if self.pairing == Pairing::OtherSpitz && !self.positive => [true, false],
            Slip::OtherSpitzPositive if self.pairing == Pairing::OtherSpitz && self.positive => [true, false],
            Slip::RequestedReadings if self.execution != 1 => [false; 2],
            Slip::PositiveRequested if self.positive && self.execution != 1 => [false; 2],
            Slip::WindNonavailableOnly if !other => [self.own()[0], false],
            Slip::WindAdjustedOnly if !other => [false, self.own()[1]],
            Slip::OtherUnbounded if other && !self.positive => [false; 2],
            Slip::PositiveUnbounded if other && self.positive => [false; 2],
            Slip::OtherAdjusted if other && !self.positive => [true; 2],
            Slip::PositiveAdjusted if other && self.positive => [true; 2],
            _ => self.own(),
        }
    }

    /// A quarter's readings that are there among those wanted, each with its place among the two.
    fn present(&self, reader: &Reader, quarter: &[u8], wanted: [bool; 2]) -> Vec<(usize, i128)> {
        if wanted == [false; 2] {
            return Vec::new();
        }
        let places = match self.slip {
            Slip::OtherExchanged if self.pairing == Pairing::OtherPauschal => [ADJUSTED, NONAVAILABLE],
            _ => [NONAVAILABLE, ADJUSTED],
        };
        let read = |at: usize| match self.slip {
            Slip::ReadingUnsigned => i128::from(link(quarter, at)),
            _ => reader.field(quarter, at),
        };
        let none = |power: i128| match self.slip {
            Slip::NoneRefused | Slip::NoneIsZero => false,
            Slip::NoneNearby => power == NONE || power == NONE - 1,
            Slip::NoneLowest => power == NONE || power == i128::from(i32::MIN),
            Slip::NoneMinusOne => power == NONE || power == -1,
            Slip::NoneZero => power == NONE || power == 0,
            Slip::NoneNegative => power == NONE || power < 0,
            Slip::NoneWide => !POWER.contains(&power),
            _ => power == NONE,
        };
        let all = (0..2).filter(|&at| wanted[at]).map(|at| (at, read(places[at])));
        all.filter(|&(_, power)| !none(power)).collect()
    }

    /// The range of a reading.
    fn allowed(&self, reader: &Reader, power: i128) -> bool {
        match self.slip {
            Slip::NoneIsZero if power == NONE => true,
            Slip::ReadingBelow if power < 0 => false,
            Slip::ReadingHighEdge => power != *POWER.end() && reader.power(power),
            Slip::ReadingHighMore => power == *POWER.end() + 1 || reader.power(power),
            Slip::ReadingLowEdge => power != *POWER.start() && reader.power(power),
            Slip::ReadingLowMore => power == *POWER.start() - 1 || reader.power(power),
            _ => reader.power(power),
        }
    }

    /// T, over this denominator, and L as the readings of a quarter bound them.
    fn bounded(&self, present: &[(usize, i128)], t: i128, l: i128, under: i128) -> (i128, i128) {
        let as_used = |&(at, power): &(usize, i128)| match self.slip {
            Slip::NonavailableCapped if at == 0 => power.min(self.nominal),
            Slip::NonavailableMissing if at == 0 => self.nominal - power,
            Slip::ReadingRaised => power.max(0),
            Slip::NoneIsZero if power == NONE => 0,
            _ => power,
        };
        let mut used: Vec<i128> = present.iter().map(as_used).collect();
        if self.slip == Slip::NoneOfTwo && self.pairing == Pairing::WindPauschal && used.len() < 2 {
            used.clear();
        }
        let (least, most) = match (used.iter().min(), used.iter().max()) {
            (Some(&least), Some(&most)) => (least, most),
            _ => return (t, l),
        };
        match (self.slip, self.positive) {
            (Slip::PositiveReference, true) => (t.min(least * under), l),
            (Slip::NegativeLimitation, false) => (t, l.min(least)),
            (Slip::BoundLarger, false) => (t.max(most * under), l),
            (Slip::PositiveBoundLarger, true) => (t, l.max(most)),
            (Slip::BoundReplaces, false) => (least * under, l),
            (Slip::BoundReplaces, true) => (t, least),
            (Slip::BoundedRaised, false) => (t.min(least * under).max(0), l),
            (Slip::BoundedRaised, true) => (t, l.min(least).max(0)),
            (_, false) => (t.min(least * under), l),
            (_, true) => (t, l.min(least)),
        }
    }
}

/// What a wrong program hands from measure to measure: a remainder over its denominator.
type Carry = (i128, i128);

/// Settle with one slip, as the host calls it.
pub fn host_settle(slip: Slip, archive: &[u8], p: u64, k: u64, list: &mut [u8], result: &mut [u8]) -> Refusal {
    carried(slip, archive, p, k, list, result, &mut (0, 1))
}

fn carried(
    slip: Slip,
    archive: &[u8],
    p: u64,
    k: u64,
    list: &mut [u8],
    result: &mut [u8],
    carry: &mut Carry,
) -> Refusal {
    match settle(slip, archive, p, k, list, result, carry) {
        Ok(()) => 0,
        Err(number) => {
            if slip == Slip::ZeroedResult {
                result.fill(0);
            }
            number
        }
    }
}

fn settle(
    slip: Slip,
    archive: &[u8],
    p: u64,
    k: u64,
    list: &mut [u8],
    result: &mut [u8],
    carry: &mut Carry,
) -> Result<(), Refusal> {
    let is = |other: Slip| slip == other;
    let (p, k) = match slip {
        Slip::NarrowPlaces => (p & 0xffff_ffff, k & 0xffff_ffff),
        Slip::PlacesFromZero => (p.saturating_add(1), k.saturating_add(1)),
        _ => (p, k),
    };
    if is(Slip::ResultFirst) {
        test(result.len() == 24, 13)?;
    }
    let reader = Reader { archive, used: head(slip, archive)?, slip };
    if is(Slip::EarlyZero) {
        test(k != 0 || p == 0, 5)?;
    }
    if is(Slip::ListBeforeEight) {
        test(list.len() >= 8, 13)?;
    }
    let plants = reader.place(0, FIRST, PLANT, p, 4)?;
    let plant_number = plants[plants.len() - 1];
    let plant = record(archive, plant_number);
    let mut six = reader.plant(plant);
    if is(Slip::PlantsBefore) {
        for &number in &plants {
            six = reader.plant(record(archive, number)).and(six);
        }
    }
    if is(Slip::PlantFirst) {
        six?;
    }
    let measures = reader.place(plant_number, SECOND, MEASURE, k, 5)?;
    let measure_number = measures[measures.len() - 1];
    let seven = |number: u64| reader.terms(record(archive, number), plant[1], plant[2]);
    if is(Slip::SevenFirst) {
        seven(measure_number)?;
    }
    let (pairing, nominal) = six?;
    if is(Slip::MeasuresBefore) {
        measures.iter().try_for_each(|&number| seven(number).map(|_| ()))?;
    }
    let (positive, execution) = seven(measure_number)?;
    let date = match slip {
        Slip::DateBigEndian => u64::from((link(record(archive, measure_number), DATE) as u32).swap_bytes()),
        _ => link(record(archive, measure_number), DATE),
    };
    let date = if is(Slip::DateSigned) && date >= 1 << 31 { 0 } else { date };
    if is(Slip::LateAtOnce) {
        test(date <= LAST.0, 18)?;
    }
    let mut links = p + k;
    if is(Slip::PlacesUncounted) {
        links = 2;
    }

    // The three chains, walked when their turn comes.
    let always = is(Slip::ChainsAlways);
    let wind = pairing == Pairing::WindSpitz;
    let solar = pairing == Pairing::SolarSpitz;
    let pauschal = matches!(pairing, Pairing::WindPauschal | Pairing::OtherPauschal);
    let with_curve = wind || (is(Slip::CurvePauschal) && pairing == Pairing::WindPauschal);
    let with_before = wind || solar || pauschal;
    let nothing = || Ok(Vec::new());
    let curve_walk =
        if with_curve || always { reader.lower(plant_number, FIRST, POINT, u64::MAX - 1) } else { nothing() };
    let before_walk = if with_before || always { reader.lower(measure_number, FIRST, BEFORE, 96) } else { nothing() };
    let quarter_walk = reader.lower(measure_number, SECOND, QUARTER, 2_976);
    if is(Slip::WalksFirst) {
        curve_walk.clone()?;
        before_walk.clone()?;
        quarter_walk.clone()?;
    }
    if is(Slip::ZeroCounted) {
        links += u64::from(with_curve) + u64::from(with_before) + 1;
    }
    let touched = |curve: &[(i128, i128)], at: usize| {
        let below = if at == 0 { curve[0].0 - 1 } else { curve[at - 1].0 };
        let above = if at + 1 == curve.len() { curve[at].0 + 1 } else { curve[at + 1].0 };
        let chains = [&before_walk, &quarter_walk];
        let mut numbers = chains.into_iter().flatten().flatten();
        numbers.any(|&number| {
            let speed = field(record(archive, number), 16);
            below < speed && speed < above
        })
    };

    let numbers = curve_walk.clone()?;
    let mut curve: Vec<(i128, i128)> = Vec::new();
    if with_curve {
        if wind && !is(Slip::CurveUncounted) {
            links += numbers.len() as u64;
        }
        let points = numbers.iter().map(|&number| record(archive, number));
        curve = points.map(|one| (reader.field(one, 8), reader.field(one, 12))).collect();
        let fewest = if is(Slip::OnePoint) { 1 } else { 2 };
        if is(Slip::CountFirst) {
            test(curve.len() >= fewest, 10)?;
        }
        for at in 0..curve.len() {
            test(reader.speed(curve[at].0) || is(Slip::CurveSpeedUntested), 9)?;
            if !is(Slip::CurvePowerUntested) && (!is(Slip::TouchedPowers) || touched(&curve, at)) {
                let signed = is(Slip::CurvePowerSigned) && curve[at].1 < 0;
                test(reader.power(curve[at].1) && (curve[at].1 >= *CURVE_POWER.start() || signed), 9)?;
            }
            if is(Slip::PointByPoint) && at > 0 {
                test(curve[at].0 > curve[at - 1].0, 10)?;
            }
        }
        let rising = |pair: &[(i128, i128)]| match slip {
            Slip::EqualSpeeds => pair[0].0 <= pair[1].0,
            Slip::FallingSpeeds => pair[0].0 != pair[1].0,
            _ => pair[0].0 < pair[1].0,
        };
        test(curve.len() >= fewest && curve.windows(2).all(rising), 10)?;
    }
    let power_at = |speed: i128| slipped_power(slip, &curve, speed).1;

    if is(Slip::BeforeAlways) && !with_before {
        let numbers = reader.lower(measure_number, FIRST, BEFORE, 96).unwrap_or_default();
        test(numbers.len() <= 96, 8)?;
    }
    if is(Slip::BeforeCounted) && !with_before {
        links += reader.lower(measure_number, FIRST, BEFORE, 96).unwrap_or_default().len() as u64;
    }
    let numbers = before_walk.clone()?;
    let (mut a, mut b) = (0, 1);
    let mut twelve = Ok(());
    if with_before {
        let before: Vec<&[u8]> = numbers.iter().map(|&number| record(archive, number)).collect();
        if is(Slip::NoneIsEight) {
            test(!before.is_empty(), 8)?;
        }
        let most_before = match slip {
            Slip::BeforeMore => 97,
            Slip::BeforeLess => 95,
            _ => 96,
        };
        let eight = test(before.len() <= most_before, 8);
        if !is(Slip::BeforeNineFirst) {
            eight?;
        }
        let ten = (wind && !is(Slip::TenPercentLeftOut))
            || (is(Slip::TenPercentPauschal) && pauschal)
            || (is(Slip::SolarTenPercent) && solar);
        let measured = |one: &[u8]| reader.field(one, 8);
        let meets = |one: &[u8]| {
            let tenfold = match slip {
                Slip::TenPercentNarrow => i128::from((10 * measured(one)) as i32),
                _ => 10 * measured(one),
            };
            match slip {
                _ if !ten => true,
                Slip::TenPercentAbove => tenfold > nominal,
                Slip::TenPercentRounded => measured(one) >= nominal / 10,
                _ => tenfold >= nominal,
            }
        };
        let marks = |one: &[u8]| match one[1] {
            1 => true,
            2..=255 => is(Slip::MarkAny),
            0 => {
                (is(Slip::WindUnmarked) && wind)
                    || (is(Slip::SolarAll) && solar)
                    || (is(Slip::PauschalUnmarked) && pauschal)
            }
        };
        let needed = match slip {
            Slip::ThreeEnough | Slip::FirstThree if wind => 3,
            Slip::SolarNeedsFour if solar => 4,
            Slip::NoneMarkedZero if pauschal => 0,
            Slip::SolarNoneMarked if solar => 0,
            _ if wind => 4,
            _ => 1,
        };
        let most = match slip {
            Slip::FirstFive if wind => 5,
            Slip::FirstThree if wind => 3,
            Slip::SolarFour if solar => 4,
            Slip::SolarFirst if solar => 1,
            _ if wind => 4,
            _ if solar => usize::MAX,
            _ => 1,
        };
        let marked: Vec<&[u8]> = before.iter().copied().filter(|one| marks(one)).collect();
        let mut usable: Vec<&[u8]> = marked.iter().copied().filter(|one| meets(one)).collect();
        match slip {
            Slip::LastFour if wind => usable.reverse(),
            Slip::PauschalLast if pauschal => usable.reverse(),
            Slip::FourMarked if wind => usable = marked.iter().copied().take(4).filter(|one| meets(one)).collect(),
            Slip::FourRecords if wind => {
                usable = before.iter().copied().take(4).filter(|one| marks(one) && meets(one)).collect();
            }
            Slip::AdjacentFour if wind => {
                let all_four = |four: &&[&[u8]]| four.iter().all(|one| marks(one) && meets(one));
                usable = before.windows(4).find(all_four).map_or(vec![], |four| four.to_vec());
            }
            _ => {}
        }
        usable.truncate(most);

        // 9.
        let weather = |one: &[u8]| reader.field(one, 16);
        let mut seen = 0;
        for one in &before {
            let behind = seen >= most;
            if !(behind && is(Slip::MarksOfUsed)) {
                test(one[1] <= 1 || is(Slip::MarkUntested) || is(Slip::MarkAny), 9)?;
            }
            let is_marked = marks(one);
            let is_usable = is_marked && meets(one);
            let power = (is_marked && !behind && (is_usable || !is(Slip::UsedOnly)))
                || (is_marked && is(Slip::AllMarked) && wind)
                || (is_marked && is(Slip::PauschalAllMarked) && pauschal)
                || (is(Slip::SolarUnmarked) && solar)
                || (is(Slip::AllBefore) && wind);
            test(!power || reader.power(measured(one)) || is(Slip::BeforeMeasuredUntested), 9)?;
            if wind && !is(Slip::WindWeatherUntested) {
                let tested = (is_usable && !behind && !(is(Slip::FewFirst) && usable.len() < 4))
                    || (is_marked && !behind && is(Slip::WeatherOfMarked))
                    || (is_usable && is(Slip::WeatherBehind));
                test(!tested || reader.speed(weather(one)), 9)?;
            }
            if solar && (is_marked || is(Slip::SolarUnmarked)) && !is(Slip::SolarWeatherUntested) {
                test(reader.irradiance(weather(one)), 9)?;
            }
            if pauschal && is_marked && !behind && is(Slip::PauschalWeather) {
                test(reader.irradiance(weather(one)), 9)?;
            }
            seen += usize::from(is_usable);
        }
        eight?;
        let curve_sum = |ones: &[&[u8]]| match slip {
            Slip::SumThenRound => {
                let parts = ones.iter().map(|one| slipped_power(slip, &curve, weather(one)).0);
                let (over, under) =
                    parts.fold((0, 1), |sum: (i128, i128), part| (sum.0 * part.1 + part.0 * sum.1, sum.1 * part.1));
                over.div_euclid(under)
            }
            _ => ones.iter().map(|one| power_at(weather(one))).sum(),
        };
        if is(Slip::TwelveBeforeEleven) && wind {
            test(curve_sum(&usable) != 0, 12)?;
        }
        test(usable.len() >= needed, 11)?;
        a = usable.iter().map(|one| measured(one)).sum();
        if wind {
            b = match slip {
                Slip::OtherFourForB => curve_sum(&marked[..4]),
                _ => curve_sum(&usable),
            };
        }
        if solar {
            b = usable.iter().map(|one| weather(one)).sum();
            if is(Slip::RaisedA) {
                a = a.max(0);
            }
        }
        let calm = usable.iter().all(|one| weather(one) == 0);
        let passed = b != 0
            || (wind && (is(Slip::TwelveUntested) || (is(Slip::TwelveIfCalm) && !calm)))
            || (solar && is(Slip::SolarTwelveUntested));
        twelve = test(passed, 12);
        if !is(Slip::TwelveLate) {
            twelve?;
        }
        if b == 0 {
            (a, b) = (0, 1);
        }
        if is(Slip::MeansRounded) && !pauschal {
            let count = usable.len() as i128;
            (a, b) = (a.div_euclid(count), b.div_euclid(count).max(1));
        }
        links += match slip {
            Slip::UsedLinks => usable.len(),
            Slip::BeforeUncounted if pauschal => 0,
            _ => before.len(),
        } as u64;
    }

    let numbers = quarter_walk.clone()?;
    links += numbers.len() as u64;
    let fewest = if is(Slip::NoQuarters) { 0 } else { 1 };
    let most_quarters = match slip {
        Slip::QuartersMore => 2_977,
        Slip::QuartersLess => 2_975,
        _ => 2_976,
    };
    let readings = Readings { slip, pairing, positive, execution, nominal, date, count: numbers.len() as u64 };
    let eighteen = late(slip, pairing, date, numbers.len() as u64);
    if is(Slip::LateBeforeEight) {
        eighteen?;
    }
    let eight = test((fewest..=most_quarters).contains(&numbers.len()), 8);
    let quarters: Vec<&[u8]> = numbers.iter().map(|&number| record(archive, number)).collect();
    let tested = if is(Slip::FirstQuarterOnly) { quarters.len().min(1) } else { quarters.len() };
    let readings_nine = quarters[..tested].iter().enumerate().try_for_each(|(at, one)| {
        let mut found = readings.present(&reader, one, readings.tested(at));
        if is(Slip::SmallestTested) {
            let measured = reader.field(one, 8);
            let compared = match (positive, execution) {
                (false, _) => a,
                (true, 1) => measured.min(reader.field(one, 12)),
                (true, _) => measured,
            };
            found.retain(|&(_, power)| power < compared);
        }
        test(found.iter().all(|&(_, power)| readings.allowed(&reader, power)), 9)
    });
    if is(Slip::ReadingsBeforeEight) {
        readings_nine?;
    }
    if !is(Slip::QuarterNineFirst) {
        eight?;
    }
    if is(Slip::LateBeforeNine) {
        eighteen?;
    }
    let places = if is(Slip::RaggedPlace) { (list.len() + 7) / 8 } else { list.len() / 8 };
    if is(Slip::ListFirst) {
        test(places >= numbers.len(), 13)?;
    }
    let moment = |at: usize| match slip {
        Slip::DateKept => slipped_time(slip, date),
        Slip::MonthKept => (slipped_time(slip, date).0, slipped_time(slip, date + at as u64).1),
        Slip::DateOfLast => slipped_time(slip, (date + at as u64 + 1).saturating_sub(quarters.len() as u64).max(1)),
        Slip::DateOwnMonth => (quarters[at][1], slipped_time(slip, date + at as u64).1),
        Slip::DateOwnTime => (slipped_time(slip, date + at as u64).0, quarters[at][2]),
        _ => slipped_time(slip, date + at as u64),
    };
    for (at, one) in quarters[..tested].iter().enumerate() {
        let own = date == 0 || is(Slip::BytesTested) || is(Slip::DateIgnored);
        let day = pairing == Pairing::SolarPauschal && own;
        let (measured, limit, weather) = (reader.field(one, 8), reader.field(one, 12), reader.field(one, 16));
        let chosen = if positive { limit < measured } else { limit > measured };
        let needs_limit = match execution {
            1 => !is(Slip::LimitUntested) && (chosen || !is(Slip::LimitIfChosen)),
            2 => is(Slip::LimitAlways),
            _ => is(Slip::LimitBothSides),
        };
        test(reader.power(measured) || is(Slip::MeasuredUntested), 9)?;
        test(!needs_limit || reader.power(limit), 9)?;
        test(!wind || reader.speed(weather) || is(Slip::QuarterSpeedUntested), 9)?;
        let needs_irradiance = (solar && !is(Slip::QuarterIrradianceUntested))
            || is(Slip::WeatherAlways)
            || (is(Slip::WeatherWindPauschal) && pairing == Pairing::WindPauschal)
            || (is(Slip::WeatherOtherSpitz) && pairing == Pairing::OtherSpitz);
        test(!needs_irradiance || reader.irradiance(weather), 9)?;
        let needs_plan = (pairing == Pairing::OtherSpitz && !is(Slip::PlanUntested)) || is(Slip::PlanAlways);
        test(!needs_plan || reader.power(reader.field(one, 20)), 9)?;
        let months = match slip {
            Slip::MonthMore => 1..=255,
            Slip::MonthZero => 0..=12,
            Slip::MonthEdge => 1..=11,
            Slip::TimeAtZero if slipped_factor(slip, one[1], one[2]) == 0 => 0..=255,
            _ => 1..=12,
        };
        test(!(day || is(Slip::MonthAlways)) || months.contains(&one[1]), 9)?;
        let latest = if is(Slip::TimeEdge) { 94 } else { 95 };
        test(!(day || is(Slip::MonthAlways)) || one[2] <= latest || is(Slip::TimeUntested), 9)?;
        let agrees = || pairing != Pairing::SolarPauschal || moment(at) == (one[1], one[2]);
        test(!is(Slip::BytesAgree) || date == 0 || agrees(), 9)?;
    }
    if !is(Slip::ReadingsBehindLate) && !is(Slip::ReadingsBehindList) {
        readings_nine?;
    }
    eight?;
    twelve?;
    if !is(Slip::LateBehindList) {
        eighteen?;
    }
    if !is(Slip::ReadingsBehindList) {
        readings_nine?;
    }

    // Amounts.
    let mut amounts: Vec<i64> = Vec::new();
    let under = match pairing {
        Pairing::WindSpitz | Pairing::SolarSpitz => b,
        Pairing::SolarPauschal => 10_000,
        _ => 1,
    };
    let largest = curve.iter().map(|&(_, power)| power).max().unwrap_or(0);
    let mut r = 0i128;
    if is(Slip::CarryAcross) && carry.1 == 4 * under {
        r = carry.0;
    }
    let first = r;
    let whole = |sum: i128| match slip {
        Slip::SignedRounding if positive => -((-sum).div_euclid(4 * under)),
        Slip::RoundUp => -((-sum).div_euclid(4 * under)),
        Slip::RoundNearest => (2 * sum + 4 * under).div_euclid(8 * under),
        _ => sum.div_euclid(4 * under),
    };
    for (at, one) in quarters.iter().enumerate() {
        let mut measured = reader.field(one, 8);
        if is(Slip::NegativeZero) {
            measured = measured.max(0);
        }
        let limit = reader.field(one, 12);
        let requested = match execution {
            1 => true,
            2 => is(Slip::ToleratedRequested),
            _ => is(Slip::BothSidesRequested) || (is(Slip::BothSidesSince) && date >= OCTOBER),
        };
        let larger = match slip {
            Slip::PositiveLarger => true,
            Slip::NegativeSmaller => false,
            _ => !positive,
        };
        let mut l = match (requested, larger) {
            _ if is(Slip::LimitTaken) && execution == 1 => limit,
            _ if is(Slip::BothSidesLimit) && execution == 3 => limit,
            (false, _) => measured,
            (true, false) => measured.min(limit),
            (true, true) => measured.max(limit),
        };
        if is(Slip::RaisedL) {
            l = l.max(0);
        }
        let ratio = |weight: i128| if is(Slip::DivideFirst) { a.div_euclid(b) * weight * b } else { a * weight };
        let weather = reader.field(one, 16);
        let mut t = match pairing {
            Pairing::WindSpitz => match slip {
                Slip::NoCap => ratio(power_at(weather)),
                Slip::CapOnT => ratio(power_at(weather).min(nominal)),
                Slip::CapCurve => ratio(power_at(weather)).min(largest * b),
                _ => ratio(power_at(weather)).min(nominal * b),
            },
            Pairing::SolarSpitz if is(Slip::SolarCap) => ratio(weather).min(nominal * b),
            Pairing::SolarSpitz => ratio(weather),
            Pairing::SolarPauschal => {
                let own = date == 0 || is(Slip::DateIgnored);
                let (month, time) = if own { (one[1], one[2]) } else { moment(at) };
                nominal * slipped_factor(slip, month, time)
            }
            Pairing::OtherSpitz => match slip {
                Slip::CapPlan => reader.field(one, 20).min(nominal),
                Slip::RaisedPlan => reader.field(one, 20).max(0),
                Slip::LimitForPlan => limit,
                _ => reader.field(one, 20),
            },
            Pairing::WindPauschal if is(Slip::CapWindPauschal) => a.min(nominal),
            Pairing::OtherPauschal if is(Slip::CapOtherPauschal) => a.min(nominal),
            Pairing::OtherPauschal if is(Slip::PlanInPauschal) => reader.field(one, 20),
            _ if is(Slip::RaisedPauschal) => a.max(0),
            _ => a,
        };
        if is(Slip::WindCapped) && pairing == Pairing::WindPauschal && readings.october(at) {
            t = t.min(nominal);
        }
        let holder = if is(Slip::BoundsKept) { quarters[0] } else { one };
        (t, l) = readings.bounded(&readings.present(&reader, holder, readings.used(at)), t, l, under);
        if is(Slip::FloorT) {
            t = t.max(0);
        }
        if is(Slip::WholeT) {
            t = t.div_euclid(under) * under;
        }
        let difference = if positive { l * under - t } else { t - l * under };
        let magnitude = match slip {
            Slip::BelowZero => difference,
            Slip::Absolute => difference.abs(),
            _ => difference.max(0),
        };
        let mut s = r + magnitude;
        if is(Slip::SumWraps) {
            s = i128::from(s as i64);
        }
        let amount = if is(Slip::RoundEach) { whole(s - r) } else { whole(s) - whole(r) };
        let minus = if positive { !is(Slip::PlusPositive) } else { is(Slip::MinusNegative) };
        amounts.push(if minus { -amount } else { amount } as i64);
        r = match slip {
            Slip::RemainderLost if magnitude == 0 => s - s.rem_euclid(4 * under),
            Slip::RemainderWhole => s - s.rem_euclid(under),
            _ => s,
        };
    }
    *carry = (r.rem_euclid(4 * under), 4 * under);
    let mut total = amounts.iter().sum::<i64>();
    match slip {
        Slip::PlusTotal => total = total.abs(),
        Slip::TotalNearest => {
            let nearest = (2 * (r - first) + 4 * under).div_euclid(8 * under) as i64;
            total = if positive { -nearest } else { nearest };
        }
        _ => {}
    }

    let write = |list: &mut [u8]| {
        for (place, amount) in list.chunks_mut(8).zip(&amounts) {
            let bytes = amount.to_le_bytes();
            place.copy_from_slice(&bytes[..place.len()]);
        }
    };
    test(places >= amounts.len() || is(Slip::ListUntested), 13)?;
    test(places == amounts.len() || !is(Slip::LongerList), 13)?;
    if is(Slip::ListWritten) {
        write(list);
    }
    test(result.len() == 24 || (is(Slip::ResultLonger) && result.len() > 24), 13)?;
    eighteen?;
    readings_nine?;
    write(list);
    if is(Slip::LaterZeroed) {
        list[8 * amounts.len()..].fill(0);
    }
    result[0..8].copy_from_slice(&(amounts.len() as u64).to_le_bytes());
    result[8..16].copy_from_slice(&total.to_le_bytes());
    result[16..24].copy_from_slice(&links.to_le_bytes());
    Ok(())
}

/// 18 of a dated measure with so many quarters.
fn late(slip: Slip, pairing: Pairing, date: u64, count: u64) -> Result<(), Refusal> {
    let behind = match slip {
        Slip::LateFirstOnly | Slip::DateOfLast => date + 1,
        Slip::DateNarrow => (date + count) & 0xffff_ffff,
        _ => date + count,
    };
    let last = match slip {
        Slip::LastRefused => LAST.0 - 1,
        Slip::LastMore => LAST.0 + 1,
        _ => LAST.0,
    };
    let tested = match slip {
        Slip::LateSolar => matches!(pairing, Pairing::SolarSpitz | Pairing::SolarPauschal),
        Slip::LateFactors => pairing == Pairing::SolarPauschal,
        Slip::LatePauschal => {
            matches!(pairing, Pairing::WindPauschal | Pairing::SolarPauschal | Pairing::OtherPauschal)
        }
        _ => true,
    };
    test(date != 0 || slip != Slip::DateNeeded, 18)?;
    test(date == 0 || !tested || behind <= last + 1, 18)
}

/// Append with one slip.
pub fn append(slip: Slip, archive: &mut [u8], owner: u64, new: &[u8]) -> Refusal {
    let is = |other: Slip| slip == other;
    let mut new = new.to_vec();
    if (is(Slip::LongRecord) && new.len() > RECORD) || (is(Slip::ShortRecord) && new.len() < RECORD) {
        new.resize(RECORD, 0);
    }
    let (used, holder, at) = match append_place(slip, archive, owner, &new) {
        Err(number) => return number,
        Ok(found) => found,
    };
    let place = used as usize * RECORD;
    if place == archive.len() {
        return 0;
    }
    let last_link = holder as usize * RECORD + at;
    if is(Slip::AtFront) {
        let before = record(archive, holder)[at..at + 4].to_vec();
        new[4..8].copy_from_slice(&before);
    }
    let end = if is(Slip::KeptBytes) { 24 } else { RECORD };
    archive[place..place + end].copy_from_slice(&new[..end]);
    if is(Slip::UnusedZeroed) {
        archive[place + RECORD..].fill(0);
    }
    if !is(Slip::LinkKept) {
        archive[last_link..last_link + 4].copy_from_slice(&(used as u32).to_le_bytes());
    }
    if !is(Slip::UsedKept) {
        archive[4..8].copy_from_slice(&(used as u32 + 1).to_le_bytes());
    }
    0
}

fn append_place(slip: Slip, archive: &[u8], owner: u64, new: &[u8]) -> Result<(u64, u64, usize), Refusal> {
    let is = |other: Slip| slip == other;
    let owner = if is(Slip::NarrowOwner) { owner & 0xffff_ffff } else { owner };
    let used = head(slip, archive)?;
    let all = (archive.len() / RECORD) as u64;
    let full = used == all || (is(Slip::FullOneLess) && used + 1 == all);
    if is(Slip::FullAtOnce) {
        test(!full, 16)?;
    }
    if is(Slip::OwnerFirst) {
        test(owner < used, 15)?;
    }
    test(new.len() == RECORD, 14)?;
    let kind = new[0];
    let known = (1..=5).contains(&kind);
    test(known, if is(Slip::KindMore) { 15 } else { 14 })?;
    test(is(Slip::NextUntested) || new[4..8] == [0; 4], 14)?;
    let end = match kind {
        PLANT if is(Slip::PlantLinksUntested) => 8,
        MEASURE if is(Slip::MeasureLinksUntested) => 8,
        PLANT | MEASURE if is(Slip::SecondUntested) => 12,
        PLANT | MEASURE if is(Slip::MoreTested) => 20,
        PLANT | MEASURE => 16,
        _ if is(Slip::LinksInAll) => 16,
        _ => 8,
    };
    test(new[8..end].iter().all(|&byte| byte == 0), 14)?;
    if is(Slip::AppendLate) {
        test(kind != MEASURE || link(new, DATE) <= LAST.0, 18)?;
    }
    if is(Slip::AppendRanges) {
        test(kind != QUARTER || (1..=12).contains(&new[1]), 9)?;
    }
    if is(Slip::FullBeforeOwner) {
        test(!full, 16)?;
    }
    if is(Slip::WalkBeforeOwner) {
        chain(archive, used, 0, FIRST, PLANT)?;
    }
    test(owner < used || (is(Slip::OwnerUnused) && owner < all), 15)?;
    let found = record(archive, owner);
    let right = match kind {
        PLANT => {
            owner == 0
                || (is(Slip::HeadByText) && &found[..4] == b"AARB")
                || (is(Slip::PlantAnywhere) && found[0] == PLANT)
        }
        POINT => owner > 0 && (found[0] == PLANT || (is(Slip::PointUnderMeasure) && found[0] == MEASURE)),
        MEASURE => owner > 0 && found[0] == PLANT,
        _ => owner > 0 && (found[0] == MEASURE || (is(Slip::OwnerKind) && found[0] == PLANT)),
    };
    test(right, 15)?;
    if is(Slip::AppendTechnology) {
        test(kind != POINT || (found[1], found[2]) == (1, 1), 15)?;
    }
    if is(Slip::ReachedOwner) && owner != 0 {
        let named = (0..owner).any(|number| {
            let holder = record(archive, number);
            let own = [NEXT, FIRST, SECOND].into_iter().filter(|&at| number > 0 || at == FIRST);
            let mut links = own.map(|at| link(holder, at));
            (number == 0 || holder[0] == PLANT || holder[0] == MEASURE) && links.any(|to| to == owner)
        });
        test(named, 15)?;
    }
    if is(Slip::FullBeforeWalk) {
        test(!full, 16)?;
    }
    let (first, other) = match kind {
        _ if is(Slip::OtherLink) => (FIRST, SECOND),
        PLANT | POINT | BEFORE => (FIRST, SECOND),
        _ => (SECOND, FIRST),
    };
    if is(Slip::OtherChain) && owner != 0 {
        let other_kind = match kind {
            POINT => MEASURE,
            MEASURE => POINT,
            BEFORE => QUARTER,
            _ => BEFORE,
        };
        chain(archive, used, owner, other, other_kind)?;
    }
    if is(Slip::OwnChain) && owner != 0 {
        chain(archive, used, owner, NEXT, found[0])?;
    }
    let reader = Reader { archive, used, slip };
    let numbers = match reader.chain(owner, first, kind, u64::MAX) {
        Err(_) if is(Slip::AppendWalk) => Vec::new(),
        found => found?,
    };
    if is(Slip::AppendCount) {
        test(kind != BEFORE || numbers.len() < 96, 8)?;
    }
    test(!full || is(Slip::FullUntested), 16)?;
    Ok(match numbers.last() {
        Some(&last) if !is(Slip::FirstLink) && !is(Slip::AtFront) => (used, last, NEXT),
        _ => (used, owner, first),
    })
}

/// A link by its holder's number and its place there.
type Name = (u64, usize);

/// Taking back with one slip.
pub fn take_back(slip: Slip, archive: &mut [u8]) -> Refusal {
    let is = |other: Slip| slip == other;
    if is(Slip::BackOneNothing) && head(slip, archive) == Ok(1) {
        return 0;
    }
    let (used, last, named) = match named_last(slip, archive) {
        Ok(found) => found,
        Err(number) => return number,
    };
    let mut zero = |&(number, at): &Name| {
        let start = number as usize * RECORD + at;
        archive[start..start + if is(Slip::BackLowByte) { 1 } else { 4 }].fill(0);
    };
    let refused = match slip {
        Slip::BackEndsAtFirst | Slip::BackLastOfSeveral | Slip::BackAllOfSeveral => named.is_empty(),
        Slip::BackNoneAccepted => named.len() > 1,
        Slip::BackByRecord => named.is_empty() || named.iter().any(|name| name.0 != named[0].0),
        _ => named.len() != 1,
    };
    let zeroed = match slip {
        _ if named.is_empty() => &named[..],
        Slip::BackLastOfSeveral => &named[named.len() - 1..],
        Slip::BackAllOfSeveral | Slip::BackByRecord => &named[..],
        _ => &named[..1],
    };
    if !is(Slip::BackLinkKept) && (!refused || is(Slip::BackZeroedRefused)) {
        zeroed.iter().for_each(&mut zero);
    }
    let place = last as usize * RECORD;
    if is(Slip::BackHandedOn) && !refused {
        let next = archive[place + NEXT..place + NEXT + 4].to_vec();
        let start = zeroed[0].0 as usize * RECORD + zeroed[0].1;
        archive[start..start + 4].copy_from_slice(&next);
    }
    if !refused || is(Slip::BackClearedRefused) {
        let (first, end) = match slip {
            Slip::BackRecordKept => (0, 0),
            Slip::BackKindOnly => (0, 1),
            Slip::BackStartOnly | Slip::BackNextKept => (0, 4),
            Slip::BackHalf => (0, 16),
            Slip::BackKnownBytes => (0, 24),
            Slip::BackKindKept => (1, RECORD),
            Slip::BackUnusedCleared => (0, archive.len() - place),
            _ => (0, RECORD),
        };
        if place + end <= archive.len() {
            archive[place + first..place + end].fill(0);
        }
        if is(Slip::BackNextKept) {
            archive[place + 8..place + RECORD].fill(0);
        }
    }
    if (!refused && !is(Slip::BackUsedKept)) || (refused && is(Slip::BackLoweredRefused)) {
        let later = (used as u32).wrapping_sub(1).to_le_bytes();
        let bytes = if is(Slip::BackBorrow) { 1 } else { 4 };
        archive[4..4 + bytes].copy_from_slice(&later[..bytes]);
    }
    if refused {
        19
    } else {
        0
    }
}

/// The tests before the count: gives U, the last record and the links that name it.
fn named_last(slip: Slip, archive: &[u8]) -> Result<(u64, u64, Vec<Name>), Refusal> {
    let is = |other: Slip| slip == other;
    if is(Slip::BackOneFirst) && archive.len() >= 8 {
        test(link(archive, 4) != 1, 19)?;
    }
    if is(Slip::BackNoneUsed) && archive.len() >= 8 {
        test(link(archive, 4) != 0, 19)?;
    }
    if is(Slip::BackTextLast) && archive.len() >= RECORD {
        let mut titled = archive.to_vec();
        titled[..4].copy_from_slice(b"AARB");
        test(crate::take_back(&mut titled) != 19, 19)?;
    }
    let used = head(slip, archive)?;
    if is(Slip::BackOneIsOne) {
        test(used != 1, 1)?;
    }
    let least = match slip {
        Slip::BackHeadTaken => 1,
        Slip::BackTwoRefused | Slip::BackLowered => 3,
        _ => 2,
    };
    test(used >= least, 19)?;
    let last = match slip {
        Slip::BackLowered => used - 2,
        Slip::BackAtUsed => used,
        _ => used - 1,
    };
    match slip {
        Slip::BackSound => test(crate::audit(archive) == 0, 17)?,
        Slip::BackSoundNineteen => test(crate::audit(archive) == 0, 19)?,
        Slip::BackAudited => test(crate::audit(archive) == 0, crate::audit(archive))?,
        _ => {}
    }
    let kind_of = |number: u64| record(archive, number)[0];
    let known = |number: u64| (1..=5).contains(&kind_of(number));
    if is(Slip::BackKinds) {
        test((1..used).all(known), 3)?;
    }
    match slip {
        Slip::BackUnknownRefused => test(known(last), 19)?,
        Slip::BackUnknownThree => test(known(last), 3)?,
        Slip::BackQuartersOnly => test(kind_of(last) == QUARTER, 19)?,
        _ => {}
    }

    let reached = if is(Slip::BackReached) { reached(archive, used) } else { Vec::new() };
    let end = if is(Slip::BackUnusedCounted) { (archive.len() / RECORD) as u64 } else { used };
    let mut named = Vec::new();
    for number in 0..end {
        for (at, kind) in counted(slip, number, kind_of(number)) {
            let to = link(record(archive, number), at);
            let to = match slip {
                Slip::BackNarrow => to & 0xffff,
                Slip::BackNarrowThree => to & 0xff_ffff,
                // U, lowered already.
                _ if (number, at) == (0, NEXT) => to - 1,
                _ => to,
            };
            let counts = match slip {
                Slip::BackRightKind => kind == kind_of(last),
                Slip::BackReached => reached[number as usize],
                Slip::BackOwnUncounted => number != last,
                _ => true,
            };
            if to == last && counts {
                named.push((number, at));
            }
        }
    }
    let own = named.iter().filter(|name| name.0 == last).count();
    match slip {
        Slip::BackOwnRefused => test(own == 0, 19)?,
        Slip::BackOwnVanishes if own < named.len() => named.retain(|name| name.0 != last),
        Slip::BackOwnOnce if own > 1 => named.truncate(named.len() - own + 1),
        _ => {}
    }
    let number = match slip {
        Slip::BackHoldsTwo => 2,
        Slip::BackHoldsSeventeen => 17,
        Slip::BackHoldsNineteen => 19,
        _ => return Ok((used, last, named)),
    };
    test(named.len() == 1, 19)?;
    let names_another = |&(at, _): &(usize, u8)| {
        let to = link(record(archive, last), at);
        to != 0 && (is(Slip::BackHoldsTwo) || to != last)
    };
    test(!counted(slip, last, kind_of(last)).iter().any(names_another), number)?;
    Ok((used, last, named))
}

/// The links that taking back looks at in a record, with the kind that each should lead to.
fn counted(slip: Slip, number: u64, kind: u8) -> Vec<(usize, u8)> {
    let is = |other: Slip| slip == other;
    if number == 0 {
        return match slip {
            Slip::BackHeadUncounted => vec![],
            Slip::BackHeadSecond => vec![(FIRST, PLANT), (SECOND, PLANT)],
            Slip::BackHeadUsed => vec![(NEXT, PLANT), (FIRST, PLANT)],
            _ => vec![(FIRST, PLANT)],
        };
    }
    let owner = kind == PLANT || kind == MEASURE;
    let known = (1..=5).contains(&kind);
    let next = match slip {
        Slip::BackNextUncounted => false,
        Slip::BackNextOfOwners => known && !owner,
        Slip::BackNextOfOthers => owner,
        Slip::BackNextOfPlants => known && kind != PLANT,
        Slip::BackNextOfPoints => known && kind != POINT,
        Slip::BackNextOfBefores => known && kind != BEFORE,
        Slip::BackUnknownCounted => true,
        Slip::BackKindZero => known || kind == 0,
        Slip::BackKindSix => known || kind == 6,
        _ => known,
    };
    let both = match slip {
        Slip::BackUnknownLinks => owner || !known,
        Slip::BackFields => known,
        Slip::BackFieldsPoint => owner || kind == POINT,
        Slip::BackFieldsQuarters => known && kind != POINT,
        _ => owner,
    };
    let first =
        both && !(is(Slip::BackCurveUncounted) && kind == PLANT || is(Slip::BackBeforeUncounted) && kind == MEASURE);
    let second = both
        && !(is(Slip::BackMeasuresUncounted) && kind == PLANT || is(Slip::BackQuartersUncounted) && kind == MEASURE)
        || is(Slip::BackPointPower) && kind == POINT
        || is(Slip::BackBeforeFree) && kind == BEFORE;
    let mut links = Vec::new();
    let mut add = |wanted: bool, at: usize, to: u8| {
        if wanted {
            links.push((at, to));
        }
    };
    add(next, NEXT, kind);
    add(first, FIRST, kind.wrapping_add(1));
    add(second, SECOND, kind.wrapping_add(2));
    add(owner && is(Slip::BackDates) || kind == PLANT && is(Slip::BackNominal), DATE, 0);
    links
}

/// Which used records the head's chains reach, as far as links are allowed and lead to the right kind.
fn reached(archive: &[u8], used: u64) -> Vec<bool> {
    let mut reached = vec![false; used as usize];
    reached[0] = true;
    // Links lead upward, so that one pass is enough.
    for number in 0..used {
        if !reached[number as usize] {
            continue;
        }
        for (at, kind) in counted(Slip::None, number, record(archive, number)[0]) {
            let to = link(record(archive, number), at);
            if to != 0 && follow(archive, used, number, to, kind).is_ok() {
                reached[to as usize] = true;
            }
        }
    }
    reached
}

/// Audit with one slip.
pub fn audit(slip: Slip, archive: &[u8]) -> Refusal {
    match audited(slip, archive) {
        Ok(()) => 0,
        Err(number) => number,
    }
}

fn audited(slip: Slip, archive: &[u8]) -> Result<(), Refusal> {
    let is = |other: Slip| slip == other;
    let used = head(slip, archive)?;
    let all = (archive.len() / RECORD) as u64;
    let reader = Reader { archive, used, slip };
    let known = |number: u64| test((1..=5).contains(&record(archive, number)[0]), 3);
    if is(Slip::KindsFirst) {
        (1..used).try_for_each(known)?;
    }
    if is(Slip::UnusedAudited) {
        (used..all).try_for_each(known)?;
    }
    let mut named = vec![0u32; used.max(1) as usize + 1];
    let mut order: Vec<u64> = (0..used).collect();
    if is(Slip::HeadLast) && !order.is_empty() {
        order.rotate_left(1);
    }
    for number in order {
        let holder = record(archive, number);
        let kind = holder[0];
        let orphan = number > 0 && named[number as usize] == 0;
        if is(Slip::OrphanAtOnce) {
            test(!orphan, 17)?;
        }
        let mut links: Vec<(usize, u8)> = match kind {
            _ if number == 0 => vec![(FIRST, PLANT)],
            PLANT if is(Slip::NeededOnly) && (holder[1], holder[2]) != (1, 1) => vec![(NEXT, PLANT), (SECOND, MEASURE)],
            PLANT => vec![(NEXT, PLANT), (FIRST, POINT), (SECOND, MEASURE)],
            MEASURE => vec![(NEXT, MEASURE), (FIRST, BEFORE), (SECOND, QUARTER)],
            _ if is(Slip::BothLinks) => vec![(NEXT, kind), (FIRST, kind), (SECOND, kind)],
            _ => vec![(NEXT, kind)],
        };
        if number > 0 && !is(Slip::UnknownKinds) {
            known(number)?;
        }
        if is(Slip::AuditLate) && number > 0 {
            test(kind != MEASURE || link(holder, DATE) <= LAST.0, 18)?;
        }
        if is(Slip::LinksBackward) {
            links.reverse();
        }
        if is(Slip::ReachedOnly) && orphan {
            links.clear();
        }
        for &(at, to_kind) in &links {
            let to = link(holder, at);
            if to == 0 {
                continue;
            }
            let free = is(Slip::NextKindFree) && at == NEXT;
            if !(is(Slip::HeadUntested) && number == 0) {
                reader.above(number, number, to)?;
                if !free {
                    reader.kind(to, to_kind)?;
                }
            }
            let counts = !(is(Slip::OrphansIgnored) && orphan)
                && !(is(Slip::HeadUncounted) && number == 0)
                && !(is(Slip::SharedNext) && at == NEXT);
            if counts && (to as usize) < named.len() {
                named[to as usize] += 1;
            }
            if is(Slip::TwiceAtOnce) {
                test(named[to as usize] == 1, 17)?;
            }
        }
    }
    let mut others = named[1..used.max(1) as usize].iter();
    let good = match slip {
        // Orphans are passed over, and what they name too.
        Slip::OrphansIgnored | Slip::OrphansAllowed => others.all(|&links| links <= 1),
        Slip::TwiceAllowed => others.all(|&links| links >= 1),
        _ => others.all(|&links| links == 1),
    };
    test(good, 17)
}

/// Show with one slip, as the byte at which the part starts; the archive's length for the empty one.
pub fn show_place(slip: Slip, archive: &[u8], number: u64) -> u64 {
    let number = if slip == Slip::NarrowNumber { number & 0xffff_ffff } else { number };
    let all = (archive.len() / RECORD) as u64;
    let used = match head(slip, archive) {
        Ok(used) => used,
        Err(_) if slip == Slip::ShownOnOne => all,
        Err(_) => 0,
    };
    let end = match slip {
        Slip::UnusedShown if used > 0 => all,
        Slip::ShownAtUsed if used > 0 => all.min(used + 1),
        _ => used,
    };
    let hidden = (slip == Slip::HeadHidden && number == 0)
        || (slip == Slip::KnownKinds && (1..end).contains(&number) && !(1..=5).contains(&record(archive, number)[0]));
    if number < end && !hidden {
        number * RECORD as u64
    } else {
        archive.len() as u64
    }
}

/// Fresh with one slip.
pub fn fresh(slip: Slip, archive: &mut [u8]) -> Refusal {
    let records = archive.len() / RECORD;
    let whole = archive.len() % RECORD == 0;
    let allowed = match slip {
        Slip::TextNeeded => head(slip, archive).is_ok(),
        Slip::FreshRagged => records >= 1 && records <= MOST_RECORDS,
        Slip::FreshLonger => whole && (1..=MOST_RECORDS + 1).contains(&records),
        _ => whole && (1..=MOST_RECORDS).contains(&records),
    };
    if !allowed {
        return 1;
    }
    if slip != Slip::FreshKeeps {
        archive.fill(0);
    }
    archive[..4].copy_from_slice(b"AARB");
    let used = match slip {
        Slip::FreshNone => 0,
        Slip::FreshAll => records as u32,
        _ => 1,
    };
    archive[4..8].copy_from_slice(&used.to_le_bytes());
    0
}

/// Delivery day with one slip, as the host calls it.
pub fn delivery_day(slip: Slip, quarter: u64, holidays: &[u32], day: &mut u64) -> Refusal {
    match due(slip, quarter, holidays) {
        Ok(0) if slip == Slip::DueFewKept => 0,
        Ok(found) => {
            *day = found;
            0
        }
        Err(number) => {
            if slip == Slip::DueWritten {
                *day = 0;
            }
            number
        }
    }
}

fn due(slip: Slip, quarter: u64, holidays: &[u32]) -> Result<u64, Refusal> {
    let is = |other: Slip| slip == other;
    let quarter = match slip {
        Slip::DueNarrow => quarter & 0xffff_ffff,
        Slip::DueZero => quarter.max(1),
        _ => quarter,
    };
    let last = match slip {
        Slip::DueLastRefused => LAST.0 - 1,
        Slip::DueLastMore => LAST.0 + 1,
        _ => LAST.0,
    };
    test((1..=last).contains(&quarter), 18)?;
    test(!is(Slip::DueListTested) || holidays.iter().all(|holiday| (1..=36_556).contains(holiday)), 18)?;
    let own = if is(Slip::DueDayFromOne) { quarter / 96 + 1 } else { (quarter - 1) / 96 + 1 };
    let (own_year, own_month, first) = slipped_month(slip, own);
    let next = first + slipped_days(slip, own_year, own_month);
    let (year, month) = next_month(own_year, own_month);
    let days = match slip {
        Slip::DueOwnMonth => first..next,
        Slip::DueDecember if own_month == 12 => next..next,
        Slip::DueGoesOn => next..next + 61,
        Slip::DueDaysOn => own + 1..own + 61,
        Slip::DueFourthDay => next + 3..next + slipped_days(slip, year, month),
        _ => next..next + slipped_days(slip, year, month),
    };

    let all = holidays.len();
    let read = match slip {
        Slip::DueRising => all.min(holidays.windows(2).take_while(|pair| pair[0] < pair[1]).count() + 1),
        Slip::DueListFirst => all.min(1),
        Slip::DueListMonth => all.min(31),
        Slip::DueListEnds => holidays.iter().position(|&holiday| holiday == 0).unwrap_or(all),
        _ => all,
    };
    let listed = |holiday: u32| match slip {
        Slip::DueListQuarters => u64::from(holiday) / 96 + 1,
        Slip::DueListNarrow => u64::from(holiday as u16),
        Slip::DueFromZero => u64::from(holiday) + 1,
        _ => u64::from(holiday),
    };
    let times = |day: u64| holidays[..read].iter().filter(|&&holiday| listed(holiday) == day).count();
    let monday = match slip {
        Slip::DueFriday => 3,
        Slip::DueWeekday => 5,
        Slip::DueMonday => 6,
        _ => 4,
    };
    let weekday = |day: u64| (day + monday) % 7;
    let workdays = match slip {
        Slip::DueSaturday => 0..6,
        Slip::DueEveryDay => 0..7,
        _ => 0..5,
    };
    let works = |day: &u64| workdays.contains(&weekday(*day));
    let away: usize = match slip {
        Slip::DueSunday => days.clone().filter(|day| !works(day) && times(*day) > 0).count(),
        Slip::DueTwice => days.clone().filter(works).map(|day| times(day).saturating_sub(1)).sum(),
        _ => 0,
    };
    let place = match slip {
        Slip::DueThird => 2,
        Slip::DueFifth => 4,
        Slip::DueFourthDay => 0,
        _ => 3,
    };
    let left: Vec<u64> = days.filter(|day| works(day) && times(*day) == 0).collect();
    let found = match left.get(place + away) {
        Some(&day) => day,
        None if is(Slip::DueFewRefused) => return Err(18),
        None if is(Slip::DueFewLast) => return Ok(left.last().copied().unwrap_or(0)),
        None => return Ok(0),
    };
    Ok(match slip {
        Slip::DueFromZero => found - 1,
        Slip::DueAsQuarter => 96 * (found - 1) + 1,
        Slip::DueDayOfMonth => found - next + 1,
        _ => found,
    })
}

/// Slips about the ends of amounts, of balanced energies and of prices: in each row the low end one less far, one
/// further, free and 0, the high end one less far, one further and free, and both ends free.
const ENDS: [[Slip; 8]; 3] = [
    [
        Slip::CentsAmountLowEdge,
        Slip::CentsAmountLowMore,
        Slip::CentsAmountLowFree,
        Slip::CentsAmountUnsigned,
        Slip::CentsAmountHighEdge,
        Slip::CentsAmountHighMore,
        Slip::CentsAmountHighFree,
        Slip::CentsAmountUntested,
    ],
    [
        Slip::CentsBalancedLowEdge,
        Slip::CentsBalancedLowMore,
        Slip::CentsBalancedLowFree,
        Slip::CentsBalancedUnsigned,
        Slip::CentsBalancedHighEdge,
        Slip::CentsBalancedHighMore,
        Slip::CentsBalancedHighFree,
        Slip::CentsBalancedUntested,
    ],
    [
        Slip::CentsPriceLowEdge,
        Slip::CentsPriceLowMore,
        Slip::CentsPriceLowFree,
        Slip::CentsPriceUnsigned,
        Slip::CentsPriceHighEdge,
        Slip::CentsPriceHighMore,
        Slip::CentsPriceHighFree,
        Slip::CentsPriceUntested,
    ],
];

const MOST_ENERGY: i128 = 1_000_000_000;
const MOST_PRICE: i128 = 1_000_000;

/// Which numbers of a list are allowed.
fn priced_range(slip: Slip, list: usize) -> RangeInclusive<i128> {
    const FREE: i128 = 1 << 64;
    let most = match (slip, list) {
        (Slip::CentsPriceAsEnergy, _) => MOST_ENERGY,
        (Slip::CentsEnergyAsPrice, _) | (_, 2) => MOST_PRICE,
        _ => MOST_ENERGY,
    };
    match ENDS[list].iter().position(|&own| own == slip) {
        Some(0) => 1 - most..=most,
        Some(1) => -most - 1..=most,
        Some(2) => -FREE..=most,
        Some(3) => 0..=most,
        Some(4) => -most..=most - 1,
        Some(5) => -most..=most + 1,
        Some(6) => -most..=FREE,
        Some(_) => -FREE..=FREE,
        None => -most..=most,
    }
}

/// The three lists of a correction, read with one slip.
struct Lists {
    slip: Slip,
    lists: [Vec<i128>; 3],
}

impl Lists {
    fn new(slip: Slip, lists: [&[i64]; 3]) -> Lists {
        let narrow = [Slip::CentsAmountNarrow, Slip::CentsBalancedNarrow, Slip::CentsPriceNarrow];
        let read = |list: usize| {
            let cut = slip == narrow[list];
            lists[list].iter().map(|&one| if cut { i128::from(one as i32) } else { i128::from(one) }).collect()
        };
        Lists { slip, lists: [0, 1, 2].map(read) }
    }

    fn is(&self, other: Slip) -> bool {
        self.slip == other
    }

    fn lengths(&self) -> [usize; 3] {
        [0, 1, 2].map(|list| self.lists[list].len())
    }

    /// The places that are taken, and summed where nothing is refused.
    fn count(&self) -> usize {
        let [amounts, balanced, prices] = self.lengths();
        match self.slip {
            Slip::CentsShortest
            | Slip::CentsPricesUncompared
            | Slip::CentsBalancedUncompared
            | Slip::CentsAmountUncompared => amounts.min(balanced).min(prices),
            Slip::CentsMissingZero => amounts.max(balanced).max(prices),
            _ => amounts,
        }
    }

    fn number(&self, list: usize, place: usize) -> i128 {
        match self.lists[list].get(place) {
            Some(&one) => one,
            None if self.is(Slip::CentsOnePrice) => self.lists[list][0],
            None => 0,
        }
    }

    fn gap(&self, place: usize) -> i128 {
        let (amount, balanced) = (self.number(0, place), self.number(1, place));
        match self.slip {
            Slip::CentsGapSwapped => balanced - amount,
            Slip::CentsGapAbsolute => (amount - balanced).abs(),
            Slip::CentsGapRaised => (amount - balanced).max(0),
            Slip::CentsGapAdded => amount + balanced,
            Slip::CentsBalancedIgnored => amount,
            Slip::CentsKilowattHours => (amount - balanced).div_euclid(1_000) * 1_000,
            _ => amount - balanced,
        }
    }

    fn product(&self, place: usize) -> i128 {
        let price = match self.slip {
            Slip::CentsPriceIgnored => 1,
            Slip::CentsPriceAbsolute => self.number(2, place).abs(),
            Slip::CentsFirstPrice => self.number(2, 0),
            _ => self.number(2, place),
        };
        let product = self.gap(place).wrapping_mul(price);
        match self.slip {
            Slip::CentsProductNarrow => i128::from(product as i32),
            Slip::CentsProductRaised => product.max(0),
            _ => product,
        }
    }

    /// Whether a number of a list is out of its range, at one place or at any that is tested.
    fn bad_at(&self, list: usize, place: usize) -> bool {
        self.lists[list].get(place).map_or(false, |one| !priced_range(self.slip, list).contains(one))
    }

    fn bad(&self, list: usize) -> bool {
        let length = self.lists[list].len();
        let tested = match self.slip {
            Slip::CentsFirstTested => length.min(1),
            Slip::CentsLastUntested => length.saturating_sub(1),
            _ => length,
        };
        (0..tested).any(|place| self.bad_at(list, place))
    }

    /// 22.
    fn unequal(&self) -> Result<(), Refusal> {
        let [amounts, balanced, prices] = self.lengths();
        let equal = match self.slip {
            Slip::CentsShortest | Slip::CentsMissingZero => true,
            Slip::CentsPricesUncompared => amounts == balanced,
            Slip::CentsBalancedUncompared => amounts == prices,
            Slip::CentsAmountUncompared => balanced == prices,
            Slip::CentsOnePrice => amounts == balanced && (amounts == prices || prices == 1),
            Slip::CentsNoBalanced => amounts == prices && (amounts == balanced || balanced == 0),
            _ => amounts == balanced && amounts == prices,
        };
        test(equal, if self.is(Slip::CentsUnequalTwenty) { 20 } else { 22 })
    }

    /// 20 for more than 2,976 quarters.
    fn many(&self) -> Result<(), Refusal> {
        let most = match self.slip {
            Slip::CentsManyTaken => 2_977,
            Slip::CentsMostRefused => 2_975,
            Slip::CentsLessRefused => 2_974,
            Slip::CentsThirtyDays => 2_880,
            Slip::CentsAnyCount => usize::MAX,
            _ => 2_976,
        };
        let number = match self.slip {
            Slip::CentsManyTwentyTwo => 22,
            Slip::CentsManyEight => 8,
            _ => 20,
        };
        let least = if self.is(Slip::CentsEmptyRefused) { 1 } else { 0 };
        let longest = self.lengths().into_iter().max().unwrap_or(0);
        test((least..=most).contains(&longest), number)
    }

    /// 20 for amounts and balanced energies.
    fn energies(&self) -> Result<(), Refusal> {
        let number = if self.is(Slip::CentsNine) { 9 } else { 20 };
        let gap = || (0..self.count()).any(|place| self.gap(place).abs() > MOST_ENERGY);
        let bad = match self.slip {
            Slip::CentsGapTested => gap(),
            Slip::CentsGapTestedToo => self.bad(0) || self.bad(1) || gap(),
            Slip::CentsBalancedTwentyOne => self.bad(0),
            _ => self.bad(0) || self.bad(1),
        };
        test(!bad, number)
    }

    /// 21.
    fn prices(&self) -> Result<(), Refusal> {
        let number = match self.slip {
            Slip::CentsNine => 9,
            Slip::CentsPriceTwenty => 20,
            _ => 21,
        };
        let bad = self.bad(2) || self.is(Slip::CentsBalancedTwentyOne) && self.bad(1);
        test(!bad, number)
    }

    /// 20 or 21 at each place in turn.
    fn by_place(&self) -> Result<(), Refusal> {
        let longest = self.lengths().into_iter().max().unwrap_or(0);
        (0..longest).try_for_each(|place| {
            test(!self.bad_at(0, place) && !self.bad_at(1, place), 20)?;
            test(!self.bad_at(2, place), 21)
        })
    }

    /// 20, then 21, over the places that all lists have.
    fn common(&self) -> Result<(), Refusal> {
        let shortest = self.lengths().into_iter().min().unwrap_or(0);
        let bad = |list| (0..shortest).any(|place| self.bad_at(list, place));
        test(shortest <= 2_976 && !bad(0) && !bad(1), 20)?;
        test(!bad(2), 21)
    }

    fn tested(&self) -> Result<(), Refusal> {
        type Test = fn(&Lists) -> Result<(), Refusal>;
        let (unequal, many, energies, prices): (Test, Test, Test, Test) =
            (Lists::unequal, Lists::many, Lists::energies, Lists::prices);
        let order = match self.slip {
            Slip::CentsPriceFirst => [unequal, prices, many, energies],
            Slip::CentsByPlace => [unequal, many, Lists::by_place, Lists::by_place],
            Slip::CentsManyLast => [unequal, energies, prices, many],
            Slip::CentsUnequalLast => [many, energies, prices, unequal],
            Slip::CentsUnequalBetween => [many, energies, unequal, prices],
            Slip::CentsManyFirst => [many, unequal, energies, prices],
            Slip::CentsCommonFirst => [Lists::common, unequal, Lists::common, Lists::common],
            _ => [unequal, many, energies, prices],
        };
        order.iter().try_for_each(|test| test(self))
    }

    /// Cents and remainder.
    fn split(&self) -> (i64, u64) {
        let count = self.count();
        let taken = match self.slip {
            Slip::CentsFirstQuarter => 0..count.min(1),
            Slip::CentsLastQuarter => count.saturating_sub(1)..count,
            Slip::CentsLastLeftOut => 0..count.saturating_sub(1),
            _ => 0..count,
        };
        let products: Vec<i128> = taken.map(|place| self.product(place)).collect();
        let add = |sum: i128, one: i128| sum.wrapping_add(one);
        let exact = products.iter().copied().fold(0, add);
        let sum = match self.slip {
            Slip::CentsDoubles => products.iter().map(|&one| one as f64).sum::<f64>() as i128,
            Slip::CentsSumNarrow => i128::from(exact as i32),
            Slip::CentsSumsMultiplied => {
                let gaps: i128 = (0..count).map(|place| self.gap(place)).sum();
                gaps * self.lists[2].iter().sum::<i128>()
            }
            _ => exact,
        };
        let cent = match self.slip {
            Slip::CentsKilo => 1_000,
            Slip::CentsEuro => 100_000_000,
            _ => 1_000_000,
        };
        let (down, rest) = (sum.div_euclid(cent), sum.rem_euclid(cent));
        let up = if rest == 0 { down } else { down + 1 };
        let (toward_zero, left) = (sum / cent, sum % cent);
        let each = products.iter().map(|one| one.div_euclid(cent)).fold(0, add);
        let (cents, remainder) = match self.slip {
            Slip::CentsEach => (each, products.iter().map(|one| one.rem_euclid(cent)).sum()),
            Slip::CentsEachRounded => (each, rest),
            Slip::CentsLastRemainder => (each, products.last().map_or(0, |one| one.rem_euclid(cent))),
            Slip::CentsTowardZero => (toward_zero, rest),
            Slip::CentsMachine => (toward_zero, left),
            Slip::CentsMagnitude => (toward_zero, left.abs()),
            Slip::CentsRemainderSign => (down, left.abs()),
            Slip::CentsNearest => ((sum + cent / 2).div_euclid(cent), rest),
            Slip::CentsUp => (up, rest),
            Slip::CentsAway if sum > 0 => (up, rest),
            Slip::CentsWholeLower if sum < 0 && rest == 0 => (down - 1, cent),
            Slip::CentsQuotientDouble => ((sum as f64 / cent as f64).floor() as i128, rest),
            _ => (down, rest),
        };
        (cents as i64, remainder as u64)
    }
}

/// The correction with one slip, as the host calls it.
pub fn correction(
    slip: Slip,
    amounts: &[i64],
    balanced: &[i64],
    prices: &[i64],
    cents: &mut i64,
    remainder: &mut u64,
) -> Refusal {
    let lists = Lists::new(slip, [amounts, balanced, prices]);
    match lists.tested() {
        Ok(()) => {
            if slip != Slip::CentsEmptyKept || !amounts.is_empty() {
                (*cents, *remainder) = lists.split();
            }
            0
        }
        Err(number) => {
            match slip {
                Slip::CentsWritten => *cents = 0,
                Slip::CentsRemainderWritten => *remainder = 0,
                Slip::CentsSumWritten if number == 21 => (*cents, *remainder) = lists.split(),
                _ => {}
            }
            number
        }
    }
}

/// Count, total and links.
type Results = [i64; 3];

/// The three numbers of a result part.
fn results(part: &[u8]) -> Results {
    [0, 8, 16].map(|at| i64::from_le_bytes(part[at..at + 8].try_into().expect("8 bytes")))
}

/// The number of measure k of plant p.
fn measure_at(archive: &[u8], p: u64, k: u64) -> Option<u64> {
    let used = head(Slip::None, archive).ok()?;
    let plant = place(archive, used, 0, FIRST, PLANT, p, 4).ok()?;
    place(archive, used, plant, SECOND, MEASURE, k, 5).ok()
}

/// A preview's arguments and one slip; list and result part as they were lent.
struct Ahead<'a> {
    slip: Slip,
    archive: &'a [u8],
    owner: u64,
    new: &'a [u8],
    p: u64,
    k: u64,
    list: &'a [u8],
    result: &'a [u8],
}

impl Ahead<'_> {
    fn is(&self, other: Slip) -> bool {
        self.slip == other
    }

    /// Owner and places as the slip takes them.
    fn arguments(mut self) -> Self {
        match self.slip {
            Slip::PreviewNarrowOwner => self.owner &= 0xffff_ffff,
            Slip::PreviewNarrowPlant => self.p &= 0xffff_ffff,
            Slip::PreviewNarrowMeasure => self.k &= 0xffff_ffff,
            Slip::PreviewLongRecord if self.new.len() > RECORD => self.new = &self.new[..RECORD],
            Slip::PreviewOwnerIgnored => {
                if let (Ok(used), Some(&kind)) = (head(Slip::None, self.archive), self.new.first()) {
                    let plant = place(self.archive, used, 0, FIRST, PLANT, self.p, 4).ok();
                    let own = match kind {
                        PLANT => Some(0),
                        POINT | MEASURE => plant,
                        _ => measure_at(self.archive, self.p, self.k),
                    };
                    self.owner = own.unwrap_or(self.owner);
                }
            }
            Slip::PreviewPlacesIgnored => {
                if let Some((p, k)) = self.place_of_owner() {
                    (self.p, self.k) = (p, k);
                }
            }
            _ => {}
        }
        self
    }

    /// Where the owner stands as a measure.
    fn place_of_owner(&self) -> Option<(u64, u64)> {
        let used = head(Slip::None, self.archive).ok()?;
        let plants = chain(self.archive, used, 0, FIRST, PLANT).ok()?;
        for (p, plant) in (1..).zip(plants) {
            let measures = chain(self.archive, used, plant, SECOND, MEASURE).unwrap_or_default();
            if let Some(at) = measures.iter().position(|&measure| measure == self.owner) {
                return Some((p, at as u64 + 1));
            }
        }
        None
    }

    /// Settle with a slip, on list and result part as they were lent.
    fn settled(&self, slip: Slip, archive: &[u8]) -> (Refusal, Vec<u8>, Vec<u8>) {
        let (mut list, mut result) = (self.list.to_vec(), self.result.to_vec());
        (host_settle(slip, archive, self.p, self.k, &mut list, &mut result), list, result)
    }

    /// Settle without the record, whatever the result part.
    fn without(&self) -> (Refusal, Results, Vec<u8>) {
        let (mut list, mut result) = (self.list.to_vec(), [0; 24]);
        let number = host_settle(Slip::None, self.archive, self.p, self.k, &mut list, &mut result);
        (number, results(&result), list)
    }

    fn used(&self) -> usize {
        link(self.archive, 4) as usize
    }

    /// The archive that is settled, or what is refused before that.
    fn filed(&self) -> Result<Vec<u8>, Refusal> {
        if self.is(Slip::PreviewResultFirst) {
            test(self.result.len() == 24, 13)?;
        }
        if self.is(Slip::PreviewListFirst) {
            test(self.without().0 != 13, 13)?;
        }
        let mut later = self.archive.to_vec();
        let by = if self.is(Slip::PreviewFullFirst) { Slip::FullAtOnce } else { self.slip };
        let number = append(by, &mut later, self.owner, self.new);
        match (self.slip, number) {
            (_, 0) => {}
            (Slip::PreviewUnfiled, _)
            | (Slip::PreviewNoFourteen, 14)
            | (Slip::PreviewNoFifteen, 15)
            | (Slip::PreviewNoTwo, 2)
            | (Slip::PreviewNoThree, 3)
            | (Slip::PreviewFullNothing, 16) => return Ok(self.archive.to_vec()),
            (Slip::PreviewFullRoom | Slip::PreviewFullLast, 16) => {
                later.extend([0; RECORD]);
                test(append(Slip::None, &mut later, self.owner, self.new) == 0, 16)?;
                let settled = self.settled(Slip::None, &later).0;
                test(self.is(Slip::PreviewFullRoom), if settled == 0 { 16 } else { settled })?;
                return Ok(later);
            }
            (Slip::PreviewSettleFirst, _) => {
                let settled = self.settled(Slip::None, self.archive).0;
                return Err(if settled == 0 { number } else { settled });
            }
            (Slip::PreviewPlacesFirst, _) => {
                let settled = self.without().0;
                return Err(if matches!(settled, 4 | 5) { settled } else { number });
            }
            _ => return Err(number),
        }
        self.more_tests(&later)?;
        match self.slip {
            Slip::PreviewBefore => later.copy_from_slice(self.archive),
            Slip::PreviewOldUsed => later[4..8].copy_from_slice(&self.archive[4..8]),
            Slip::PreviewFront if self.new[0] == QUARTER => self.to_front(&mut later, SECOND),
            Slip::PreviewLatest if self.new[0] == BEFORE => self.to_front(&mut later, FIRST),
            _ => {}
        }
        Ok(later)
    }

    /// Refusals between append's and settle's that there are none of.
    fn more_tests(&self, later: &[u8]) -> Result<(), Refusal> {
        let sound = |archive: &[u8]| {
            let number = audit(Slip::None, archive);
            test(number == 0, number)
        };
        match self.slip {
            Slip::PreviewResultSecond => test(self.result.len() == 24, 13),
            Slip::PreviewSound => sound(self.archive),
            Slip::PreviewSoundAfter => sound(later),
            Slip::PreviewStaleLink => {
                let used = self.used() as u64;
                test(names(self.archive, used, used).is_empty(), 2)
            }
            Slip::PreviewStalePlace => test(record(self.archive, self.used() as u64).iter().all(|&byte| byte == 0), 16),
            Slip::PreviewOwnMeasure => test(measure_at(later, self.p, self.k) == Some(self.owner), 15),
            Slip::PreviewQuartersOnly => test(self.new[0] == QUARTER, 14),
            Slip::PreviewBeforeRefused => {
                let number = self.without().0;
                test(number == 0, number)
            }
            Slip::PreviewRanges => test(self.new[0] != QUARTER || (1..=12).contains(&self.new[1]), 9),
            Slip::PreviewPlacesBefore => {
                let used = head(Slip::None, self.archive)?;
                let plant = place(self.archive, used, 0, FIRST, PLANT, self.p, 4)?;
                place(self.archive, used, plant, SECOND, MEASURE, self.k, 5).map(|_| ())
            }
            _ => Ok(()),
        }
    }

    /// Hands the contents of a chain on, so that the last record's stand in the first one.
    fn to_front(&self, later: &mut [u8], first: usize) {
        let used = self.used() as u64 + 1;
        if let Ok(numbers) = chain(later, used, self.owner, first, self.new[0]) {
            for pair in numbers.windows(2).rev() {
                let [a, b] = [pair[0], pair[1]].map(|number| number as usize * RECORD);
                for at in (0..NEXT).chain(FIRST..RECORD) {
                    later.swap(a + at, b + at);
                }
            }
        }
    }

    /// Whether the new record is the last quarter of the measure that is settled.
    fn is_last_quarter(&self, filed: &[u8]) -> bool {
        let (new, used) = (self.used() as u64, link(filed, 4));
        measure_at(filed, self.p, self.k)
            .and_then(|measure| chain(filed, used, measure, SECOND, QUARTER).ok())
            .map_or(false, |numbers| numbers.last() == Some(&new))
    }

    /// What settle of the archive with the record gives.
    fn given(&self, filed: &[u8]) -> (Refusal, Vec<u8>, Vec<u8>) {
        let by = match self.slip {
            Slip::PreviewMostQuarters => Slip::QuartersMore,
            Slip::PreviewMostBefore => Slip::BeforeMore,
            Slip::PreviewRoundEach => Slip::RoundEach,
            Slip::PreviewResultLonger => Slip::ResultLonger,
            Slip::PreviewListWritten => Slip::ListWritten,
            other => other,
        };
        let mut given = self.settled(by, filed);
        match (self.slip, given.0) {
            (Slip::PreviewFieldsUntested, 9) if self.without().0 == 0 => {
                given = self.settled(Slip::FirstQuarterOnly, filed);
            }
            (Slip::PreviewLateBefore, 18) if self.without().0 == 0 => given = self.settled(Slip::LateFirstOnly, filed),
            (Slip::PreviewListBefore, 13) if self.without().0 == 0 => given = self.settled(Slip::ListUntested, filed),
            (Slip::PreviewListPartly, 13) => given.1 = self.settled(Slip::ListUntested, filed).1,
            (Slip::PreviewListZeroed, 1..) => given.1.fill(0),
            (Slip::PreviewResultZeroed, 1..) => given.2.fill(0),
            (_, 0) => self.other_results(filed, &mut given.1, &mut given.2),
            _ => {}
        }
        given
    }

    /// Other results and another list where nothing is refused.
    fn other_results(&self, filed: &[u8], list: &mut [u8], result: &mut [u8]) {
        let [mut count, mut total, mut links] = results(result);
        let without = || self.without();
        let last = || {
            let at = 8 * (count as usize - 1);
            let is_new = self.is_last_quarter(filed);
            is_new.then(|| (at, i64::from_le_bytes(list[at..at + 8].try_into().expect("8 bytes"))))
        };
        match self.slip {
            Slip::PreviewCountBefore => count -= i64::from(last().is_some()),
            Slip::PreviewTotalBefore => total -= last().map_or(0, |(_, amount)| amount),
            Slip::PreviewLinksBefore => {
                links = match without() {
                    (0, [_, _, links], _) => links,
                    _ => links - 1,
                }
            }
            Slip::PreviewLinkAlways => {
                let (number, before, _) = without();
                links += i64::from(number == 0 && before[2] == links);
            }
            Slip::PreviewDifference => {
                if let (0, [_, before, _], _) = without() {
                    total -= before;
                }
            }
            Slip::PreviewNewAlone => {
                if let Some((at, amount)) = last() {
                    let alone = &self.settled(Slip::RoundEach, filed).1[at..at + 8];
                    list[at..at + 8].copy_from_slice(alone);
                    total += i64::from_le_bytes(alone.try_into().expect("8 bytes")) - amount;
                }
            }
            Slip::PreviewNewFirst => {
                if let Some((_, amount)) = last() {
                    list.copy_from_slice(self.list);
                    list[..8].copy_from_slice(&amount.to_le_bytes());
                    (count, total) = (1, amount);
                }
            }
            Slip::PreviewNewPlace => {
                if let Some((at, _)) = last() {
                    list[..at].copy_from_slice(&self.list[..at]);
                }
            }
            _ => return,
        }
        for (part, number) in result.chunks_exact_mut(8).zip([count, total, links]) {
            part.copy_from_slice(&number.to_le_bytes());
        }
    }

    /// The archive after the call.
    fn left(&self, number: Refusal) -> Vec<u8> {
        let (mut left, mut later) = (self.archive.to_vec(), self.archive.to_vec());
        let (start, last_link) = match append_place(Slip::None, self.archive, self.owner, self.new) {
            Ok((used, holder, at)) => (used as usize * RECORD, holder as usize * RECORD + at),
            Err(_) => return left,
        };
        append(Slip::None, &mut later, self.owner, self.new);
        let all = left.len();
        let kept = match self.slip {
            Slip::PreviewFiled => 0..all,
            Slip::PreviewFiledGood if number == 0 => 0..all,
            Slip::PreviewFiledRefused if number != 0 => 0..all,
            Slip::PreviewRecordLeft => start..start + RECORD,
            Slip::PreviewKnownBytes => start + 24..start + RECORD,
            Slip::PreviewHalf => start + 16..start + RECORD,
            Slip::PreviewLinkLeft => last_link..last_link + 4,
            Slip::PreviewLinkByte => last_link + 1..last_link + 4,
            Slip::PreviewUsedLeft => 4..8,
            Slip::PreviewUsedByte => 5..8,
            Slip::PreviewTakenBack | Slip::PreviewNineteen => {
                take_back(Slip::None, &mut later);
                0..all
            }
            _ => 0..0,
        };
        left[kept.clone()].copy_from_slice(&later[kept]);
        match self.slip {
            Slip::PreviewZeroed => left[start..start + RECORD].fill(0),
            Slip::PreviewZeroedRefused if number != 0 => left[start..start + RECORD].fill(0),
            Slip::PreviewUnusedZeroed => left[start..].fill(0),
            Slip::PreviewNamesZeroed => {
                let new = (start / RECORD) as u64;
                for (holder, at) in names(&later, new + 1, new) {
                    left[holder as usize * RECORD + at..][..4].fill(0);
                }
            }
            _ => {}
        }
        left
    }
}

/// The preview with one slip, of the preview, of append or of settle, as the host calls it.
#[allow(clippy::too_many_arguments)]
pub fn preview(
    slip: Slip,
    archive: &mut [u8],
    owner: u64,
    new: &[u8],
    p: u64,
    k: u64,
    list: &mut [u8],
    result: &mut [u8],
) -> Refusal {
    let call = Ahead { slip, archive, owner, new, p, k, list, result }.arguments();
    let filed = call.filed();
    let (mut number, mut later_list, mut later_result) = match &filed {
        Ok(filed) => call.given(filed),
        Err(number) => (*number, call.list.to_vec(), call.result.to_vec()),
    };
    if filed.is_err() {
        match slip {
            Slip::PreviewListZeroedAppend => later_list.fill(0),
            Slip::PreviewListBeforeAppend => later_list = call.without().2,
            Slip::PreviewResultZeroedAppend => later_result.fill(0),
            _ => {}
        }
    }
    if let (Slip::PreviewNineteen, Ok(filed)) = (slip, &filed) {
        if take_back(Slip::None, &mut filed.clone()) == 19 {
            (number, later_list, later_result) = (19, call.list.to_vec(), call.result.to_vec());
        }
    }
    let left = call.left(number);
    archive.copy_from_slice(&left);
    list.copy_from_slice(&later_list);
    result.copy_from_slice(&later_result);
    number
}

/// The program's lines with one slip, of the program or of settle.
pub fn program(slip: Slip, input: &[u8]) -> Vec<u8> {
    use std::io::Write;
    let is = |other: Slip| slip == other;
    let mut out = Vec::new();
    let mut input = input;
    let most = if is(Slip::InputLess) { 65_535 } else { 65_536 };
    if input.len() > most && !is(Slip::InputMore) {
        if !is(Slip::LongCut) {
            return b"E 0 0 1\n".to_vec();
        }
        input = &input[..65_536];
    }
    let used = match head(slip, input) {
        Ok(used) => used,
        Err(_) => return b"E 0 0 1\n".to_vec(),
    };
    if is(Slip::NoPlantLine) && link(input, FIRST) == 0 {
        return b"E 0 0 1\n".to_vec();
    }
    let mut list = vec![0; 8 * (used as usize + 1)];
    let mut result = [0; 24];
    let mut carry = (0, 1);
    let (mut p, mut k, mut stored) = (1, 1, 0);
    // A wrong reading can lead on for ever.
    while p + k <= used + 2 {
        match carried(slip, input, p, k, &mut list, &mut result, &mut carry) {
            0 => {
                let number = |at: usize| i64::from_le_bytes(result[at..at + 8].try_into().unwrap());
                let _ = writeln!(out, "M {p} {k} {} {} {}", number(0), number(8), number(16));
                for (place, amount) in list.chunks(8).take(number(0) as usize).enumerate() {
                    let amount = i64::from_le_bytes(amount.try_into().unwrap());
                    stored += 1;
                    let place = if is(Slip::QuarterFromZero) { place } else { place + 1 };
                    if (is(Slip::FixedStore) && stored > 2_048) || (is(Slip::ZeroLeftOut) && amount == 0) {
                        continue;
                    }
                    let minus = is(Slip::MinusZero) && amount == 0 && positive(input, used, p, k);
                    let _ = writeln!(out, "Q {place} {}{amount}", if minus { "-" } else { "" });
                }
                if is(Slip::FirstMeasure) {
                    (p, k) = (p + 1, 1);
                } else {
                    k += 1;
                }
            }
            4 => {
                if is(Slip::FourLine) {
                    let _ = writeln!(out, "E {p} {k} 4");
                }
                return out;
            }
            5 => {
                if is(Slip::FiveLine) {
                    let _ = writeln!(out, "E {p} {k} 5");
                }
                if is(Slip::FiveEnds) || is(Slip::FirstPlant) {
                    return out;
                }
                p += 1;
                if !is(Slip::MeasureKept) {
                    k = 1;
                }
            }
            number => {
                let plant = place(input, used, 0, FIRST, PLANT, p, 4);
                let below = plant.and_then(|plant| place(input, used, plant, SECOND, MEASURE, k, 5)).is_ok();
                let shown = if is(Slip::BrokenPlant) && plant.is_err() { 0 } else { k };
                let _ = writeln!(out, "E {p} {shown} {number}");
                let goes_on = match number {
                    2 if is(Slip::TwoGoesOn) => true,
                    2 if is(Slip::TwoSkips) => below,
                    3 if is(Slip::ThreeGoesOn) => true,
                    2 | 3 => is(Slip::LowerGoesOn) && below,
                    18 if is(Slip::LateEnds) => false,
                    _ => !is(Slip::OtherEnds),
                };
                if !goes_on {
                    return out;
                }
                let skips = match number {
                    2 => is(Slip::TwoSkips),
                    6 => is(Slip::SixSkips),
                    7 => is(Slip::SevenSkips),
                    _ => false,
                };
                if skips {
                    (p, k) = (p + 1, 1);
                } else {
                    k += 1;
                }
            }
        }
    }
    out
}

fn positive(archive: &[u8], used: u64, p: u64, k: u64) -> bool {
    place(archive, used, 0, FIRST, PLANT, p, 4)
        .and_then(|plant| place(archive, used, plant, SECOND, MEASURE, k, 5))
        .map_or(false, |measure| record(archive, measure)[1] == 1)
}
