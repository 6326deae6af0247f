//! `expect` after a step: every form of `st9 help expect`, each met by the answer that document 01 gives and not met by
//! one that is slightly different.

#[path = "support/blocks.rs"]
mod blocks;
#[path = "support/objects.rs"]
mod objects;
mod support;

use blocks::{assert_table, RECORDS, START};
use objects::objects;
use support::{folder, st9, st9_in};

/// Of every other kind of answer than a read's.
const READS: &str = "\
set EIPR 14h
read EIPR
+ byte 14h | byte 0x14 | byte 20 | Byte 14H
- byte 15h | byte 10h | byte 04h | byte 94h | byte 00h | written | erased 14h | erased INTB0 INTC0 | raised
- raised INTB0 | merged | not selected | none | acknowledged INTB0 | acknowledged top level | returned | reset
- refused 3

set PPR 27h
read PPR
+ byte 24h | PPR 27h
- byte 27h | PPR 24h

read R255
+ refused 3
- refused 4 | byte 00h
";

const READS_OF_RECORDS: &str = "\
set R240.p9 DAh
read R240
+ byte 1Ah | R240.p9 DAh
- byte DAh | R240.p9 1Ah | byte 3Ah
";

#[test]
fn reads() {
    assert_table(START, READS);
    assert_table(RECORDS, READS_OF_RECORDS);
}

const WRITES: &str = "\
write R16 5
+ written | R16 5
- erased 05h | erased INTA0 | erased TLIP | byte 5 | byte 0 | none | returned | reset | raised | refused 3 | R16 4

set EIPR 14h
write EIPR 14h
+ written
- erased 14h | erased INTB0 INTC0 | erased INTB0

set EIPR 14h
write EIPR FFh
+ written | EIPR FFh
- erased EBh | erased 14h

set EIPR 14h
write EIPR 00h
+ erased INTB0 INTC0 | erased INTC0 INTB0 | erased INTB0, INTC0 | erased 14h | erased 14h: INTB0, INTC0
- erased INTB0 | erased INTC0 | erased INTB0 INTC0 INTD0 | erased INTB0 INTC1 | erased INTA0 INTB0 INTC0
- erased INTB0 INTC0 TLIP | erased 04h | erased 10h | erased 15h | erased 94h | erased TLIP | written | byte 14h
- raised | merged INTB0 | acknowledged INTB0 | refused 3

set EIPR FFh
write EIPR 7Fh
+ erased INTD1 | erased 80h
- erased INTD0 | erased FFh | erased 7Fh | written

set CICR D7h
write CICR 97h
+ erased TLIP
- written | erased INTD0 | erased 40h | erased INTA0 TLIP | raised TLIP | merged TLIP | acknowledged top level

set CICR D7h
write CICR 40h
+ written
- erased TLIP | erased 97h

set NICR 85h
write NICR 02h
+ written | NICR 82h
- NICR 02h | NICR 87h

write PPR 27h
+ written | PPR 24h
- PPR 27h

set EIPR 01h
write EIPR 02h
+ erased INTA0 | EIPR 02h
- erased INTA1 | erased INTA0 INTA1 | erased 02h | erased 03h | raised INTA1

write R224 5
+ written
- refused 3

write R241 5
+ refused 3
- refused 2 | written | erased FFh

write R256 5
+ refused 3
- refused 4 | written
";

const WRITES_OF_RECORDS: &str = "\
set R240.p9 3Ah
write R240 1Ah
+ erased IP of channel 0
- erased IP of channel 1 | written | erased TLIP | erased INTA0 | erased INTC1 | erased 20h

set R240.p9 3Ah
write R240 FFh
+ written | R240.p9 3Fh
- erased IP of channel 0 | R240.p9 FFh

set R240.p10 3Ah
set PPR 28h
write R240 00h
+ erased IP of channel 1
- erased IP of channel 0 | erased INTA1 | written

set EIPR 04h
write R243 00h
+ written | EIPR 04h
- erased INTB0 | EIPR 00h
";

#[test]
fn writes() {
    assert_table(START, WRITES);
    assert_table(RECORDS, WRITES_OF_RECORDS);
}

const TRIGGERS: &str = "\
edge INTB0 falling
+ raised | raised INTB0
- merged | merged INTB0 | not selected | INTB0 not selected | raised INTB1 | raised INTA0 | raised INTC0
- raised TLIP | raised INTB0, raised TLIP | raised INTB0, merged TLIP | raised INTB0, raised INTC0 | written
- erased INTB0 | none | acknowledged INTB0 | refused 4

set EIPR 04h
edge INTB0 falling
+ merged | merged INTB0
- raised | raised INTB0 | not selected | merged INTB1 | merged TLIP | merged INTB0, merged TLIP

edge INTB0 rising
+ not selected | INTB0 not selected
- raised | raised INTB0 | merged | merged INTB0 | raised TLIP | none | refused 4

set EITR 04h
edge 2 1
+ raised INTB0
- not selected

set EIVR 44h
edge INTA0 falling
+ not selected | INTA0 not selected
- raised | raised INTA0

edge INTA0 falling
+ raised INTA0
- INTA0 not selected

edge 8 falling
+ refused 4
- refused 3 | raised | not selected

edge INTB0 2
+ refused 4
- refused 7 | not selected

edge 8 2
+ refused 4
- merged

edge 4294967295 255
+ refused 4
- refused 3

nmi falling
+ raised | raised TLIP
- merged TLIP | merged | not selected | TLIP not selected | raised INTA0 | raised INTA0, raised TLIP

nmi rising
+ not selected | TLIP not selected
- raised | raised TLIP | merged TLIP

set EIVR 4Eh
set CICR D7h
nmi rising
+ merged | merged TLIP
- raised | raised TLIP | not selected

set EIVR 42h
nmi falling
+ TLIP not selected
- raised TLIP

nmi 2
+ refused 4
- refused 7 | TLIP not selected

request 0
+ refused 4
- refused 3 | not selected
";

const TRIGGERS_OF_RECORDS: &str = "\
request 0
+ raised | raised channel 0 | raised CH0
- merged | not selected | raised channel 1 | raised CH1 | raised INTA0 | raised TLIP | channel 0 not selected

set R240.p10 3Ah
request CH1
+ merged | merged channel 1
- raised | merged channel 0 | raised channel 1 | merged INTA1

request 2
+ refused 4
- refused 2 | raised
";

#[test]
fn triggers() {
    assert_table(START, TRIGGERS);
    assert_table(RECORDS, TRIGGERS_OF_RECORDS);
}

/// Document 01 answers for TLIP separately, and a pin or a record never selects it.
const TLIP_OF_OTHER_TRIGGERS: &str = "\
edge INTB0 falling
+ raised INTB0, TLIP not selected | raised INTB0; TLIP not selected
- raised INTB0, raised TLIP | merged INTB0, TLIP not selected | INTB0 not selected, TLIP not selected

edge INTB0 rising
+ INTB0 not selected, TLIP not selected
- raised INTB0, TLIP not selected | INTB0 not selected, raised TLIP

request 0
+ raised channel 0, TLIP not selected
- raised channel 0, merged TLIP
";

#[test]
fn tlip_of_other_triggers() {
    assert_table(RECORDS, TLIP_OF_OTHER_TRIGGERS);
}

/// The one trigger that can select two bits: what is not named is not selected.
const WATCHDOGS: &str = "\
set EIVR 44h
watchdog
+ raised | raised INTA0 | raised INTA0, TLIP not selected
- merged | raised TLIP | raised INTA0, raised TLIP | raised INTA0, merged TLIP | merged INTA0, TLIP not selected
- INTA0 not selected | not selected

set EIVR 42h
watchdog
+ raised | raised TLIP | INTA0 not selected, raised TLIP
- raised INTA0 | INTA0 not selected, merged TLIP | raised INTA0, raised TLIP | raised INTA0, TLIP not selected
- not selected

set EIVR 46h
watchdog
+ not selected | INTA0 not selected, TLIP not selected
- raised | raised INTA0 | raised TLIP | merged TLIP

set EIVR 40h
watchdog
+ raised INTA0, raised TLIP | raised INTA0; raised TLIP
- raised | raised INTA0 | raised TLIP | raised INTA0, TLIP not selected | INTA0 not selected, raised TLIP
- merged INTA0, raised TLIP | raised INTA0, merged TLIP | merged | not selected

set EIVR 40h
set EIPR 01h
watchdog
+ merged INTA0, raised TLIP
- merged | raised | merged INTA0 | raised TLIP | raised INTA0, merged TLIP | merged INTA0, merged TLIP
- merged INTA0, TLIP not selected

set EIVR 40h
set EIPR 01h
set CICR D7h
watchdog
+ merged INTA0, merged TLIP
- merged | merged INTA0 | merged TLIP | merged INTA0, raised TLIP | raised INTA0, raised TLIP | not selected
";

#[test]
fn watchdogs() {
    assert_table(START, WATCHDOGS);
}

const ARBITRATIONS: &str = "\
arbitrate
+ none
- acknowledged INTA0 | acknowledged INTA0 level 0 vector 40h | acknowledged top level | returned | not selected
- written | refused 5 | byte 00h

set EIPR 10h
arbitrate
+ acknowledged INTC0 level 4 vector 48h | acknowledged INTC0, level 4, vector 48h | acknowledged INTC0 level 4
+ acknowledged INTC0 vector 48h | acknowledged INTC0
- acknowledged INTC1 level 4 vector 48h | acknowledged INTB0 level 4 vector 48h
- acknowledged INTC0 level 3 vector 48h | acknowledged INTC0 level 5 vector 48h | acknowledged INTC0 level 0
- acknowledged INTC0 level 4 vector 49h | acknowledged INTC0 level 4 vector 4Ah | acknowledged INTC0 vector 04h
- acknowledged INTC0 level 3 | acknowledged INTC1 | acknowledged top level | acknowledged top level vector 04h
- none | raised INTC0 | erased INTC0 | refused 6

set CICR C7h
set NICR 80h
arbitrate
+ acknowledged top level vector 04h | acknowledged top level | acknowledged the top level, vector 04h | MARK 1
- acknowledged top level vector 05h | acknowledged top level vector 40h | acknowledged INTA0
- acknowledged INTA0 vector 04h | none | MARK 0

set EIPR 10h
set MARK 7
arbitrate
+ none | MARK 7
- acknowledged INTC0 | acknowledged top level | MARK 1

set EIPR 80h
arbitrate
+ none
- acknowledged INTD1

set CICR 94h
set EIPR 10h
arbitrate
+ none
- acknowledged INTC0
";

#[test]
fn arbitrations() {
    assert_table(START, ARBITRATIONS);
}

const TRANSFERS: &str = "\
set R240.p9 3Ah
arbitrate
+ DMA of channel 0 | DMA of channel 0: one byte moved | R20 5Ah | R16 21 | R17 2
- DMA of channel 0 block ended | DMA of channel 0: one byte moved, block ended | DMA of channel 1
- acknowledged channel 0 | acknowledged INTA0 | none | refused 5

set R240.p9 3Ah
set R17 1
arbitrate
+ DMA of channel 0 block ended | DMA of channel 0: one byte moved, block ended | R240.p9 2Ah
- DMA of channel 0 | DMA of channel 0: one byte moved | DMA of channel 1 block ended | acknowledged channel 0 | none

set R240.p10 3Ah
set R18 30
arbitrate
+ DMA of channel 1 | R244.p10 A7h
- DMA of channel 0 | DMA of channel 1 block ended | R244.p10 00h

set R240.p9 2Ah
arbitrate
+ acknowledged channel 0 level 2 vector 34h | acknowledged CH0
- acknowledged channel 0 level 2 vector 35h | acknowledged channel 0 level 3 vector 34h | acknowledged channel 1
- acknowledged CH1 level 2 vector 34h | acknowledged INTA0 | DMA of channel 0 | none

set R240.p9 3Ah
set R242.p9 10h
arbitrate
+ refused 5
- refused 6 | DMA of channel 0 | none

set R240.p9 3Ah
set R242.p9 F0h
arbitrate
+ refused 6
- refused 5

set R240.p9 3Ah
set R242.p9 E1h
arbitrate
+ refused 6
- refused 5 | DMA of channel 0

set R240.p9 3Ah
set R16 224
arbitrate
+ refused 6
- refused 5

set R240.p9 3Ah
set R16 223
arbitrate
+ DMA of channel 0 | R223 5Ah
- refused 6
";

#[test]
fn transfers() {
    assert_table(RECORDS, TRANSFERS);
}

const RETURNS_AND_RESETS: &str = "\
set CICR 87h
return
+ returned | CICR 97h
- reset | none | written | raised | refused 7 | CICR 87h

set CICR 8Ah
set NICR 28h
return
+ returned | CICR 9Bh | NICR 20h
- CICR 9Dh | NICR 08h

set EIPR 14h
reset
+ reset | EIPR 00h | CICR 87h | MODER E0h | erased INTB0 INTC0 | erased 14h
- returned | none | erased INTB0 | erased INTB0 INTC0 TLIP | written | CICR 97h | refused 7
";

#[test]
fn returns_and_resets() {
    assert_table(START, RETURNS_AND_RESETS);
}

/// A word is a step as any other: document 01 knows kinds 0 to 5 and triggers 0 to 3.
const RAW_WORDS: &str = "\
step 0x000000000000E600
+ byte 97h
- byte 87h | refused 7

step E600h
+ byte 97h
- byte 96h

set EIPR 14h
step 0x000100000000F304
+ erased INTC0
- erased INTB0 | written

step 0x0002000000000200
+ raised INTB0
- raised INTC0 | not selected

step 0x0002000000000201
+ not selected
- raised INTB0

step 0x0002000000000202
+ refused 4
- refused 7

step 0x0002000100000000
+ not selected
- raised TLIP

step 0x0002000200000000
+ raised TLIP
- not selected

step 0x0002000300000000
+ refused 4
- refused 7

step 0x0002000400000000
+ refused 7
- refused 4

set EIPR 10h
step 0x0003000000000000
+ acknowledged INTC0 level 4 vector 48h
- none

step 0x0004000000000000
+ returned
- reset

step 0x0005000000000000
+ reset
- returned

step 0x0006000000000000
+ refused 7
- refused 6 | refused 3 | reset

step FFFFFFFFFFFFFFFFh
+ refused 7
- refused 4
";

#[test]
fn raw_words() {
    assert_table(START, RAW_WORDS);
}

/// The image after a step: a byte of each kind of place, and exactly the bytes that changed.
const BYTES_AND_CHANGES: &str = "\
set R0 7
read R0
+ R0 7 | R0 07h | r0 0x07 | R239 0 | CICR 97h | R230 97h | EIPR.p0 00h | R243.p0 00h | R255.p63 0 | MARK 0
+ changed nothing
- R0 6 | R1 7 | R239 1 | CICR 96h | R230 87h | EIPR 01h | R244.p0 00h | R243.p1 1 | R255.p63 1 | MARK 1
- changed R0 7 | changed R0 7 -> 7

set R16 1
write R16 5
+ changed R16 5 | changed R16 1 -> 5 | changed R16 01h -> 05h
- changed nothing | changed R16 6 | changed R16 4 | changed R16 0 -> 5 | changed R16 2 -> 5 | changed R16 1 -> 6
- changed R16 5 -> 1 | changed R17 5 | changed R16 5, R17 0 | changed R16 5, CICR 97h

set R16 5
write R16 5
+ changed nothing
- changed R16 5 | changed R16 5 -> 5

set EIPR 10h
arbitrate
+ changed EIPR 00h CICR 87h | changed CICR 87h EIPR 00h | changed CICR 97h -> 87h, EIPR 10h -> 00h
+ changed CICR 87h, EIPR 10h -> 00h | changed EIPR 10h -> 00h CICR 87h
- changed EIPR 00h | changed CICR 87h | changed EIPR 10h -> 00h | changed CICR 97h -> 87h
- changed EIPR 00h CICR 97h | changed EIPR 10h CICR 87h | changed EIPR 14h -> 00h CICR 87h
- changed EIPR 00h CICR 87h -> 87h | changed EIPR 00h CICR 87h NICR 00h | changed EIPR 00h CICR 87h MARK 0
- changed nothing

set CICR C7h
set NICR 80h
arbitrate
+ changed CICR 87h MARK 1 | changed CICR C7h -> 87h, MARK 0 -> 1
- changed CICR 87h | changed MARK 1 | changed CICR 87h MARK 2

set MARK 9
return
+ changed MARK 0 | changed MARK 9 -> 0 | changed MARK 09h -> 00h
- changed MARK 1 -> 0 | changed MARK 9 | changed nothing | changed MARK 0 CICR 97h

reset
+ changed CICR 87h MODER E0h EIMR 00h EIPLR FFh
- changed CICR 87h MODER E0h EIMR 00h EIPLR FFh EIVR 46h | changed CICR 87h MODER E0h EIMR 00h
- changed CICR 87h EIMR 00h EIPLR FFh

set NICR 80h
write NICR 00h
+ changed nothing
- changed NICR 00h | changed NICR 80h

read R256
+ refused 3 | changed nothing | CICR 97h
- changed CICR 97h | CICR 87h | refused 3 before any step | refused 3 at step 0 | refused 3 after 0 arbitrations
";

const BYTES_AND_CHANGES_OF_RECORDS: &str = "\
set R240.p9 3Ah
arbitrate
+ changed R16 14h -> 15h, R17 03h -> 02h, R20 00h -> 5Ah, R240.p9 3Ah -> 1Ah
+ changed R240.p9 1Ah R20 5Ah R17 2 R16 21
- changed R16 14h -> 15h, R17 03h -> 02h, R20 00h -> 5Ah
- changed R16 14h -> 15h, R17 03h -> 02h, R20 00h -> 5Ah, R240.p10 3Ah -> 1Ah
- changed R16 14h -> 15h, R17 03h -> 02h, R20 00h -> 5Bh, R240.p9 3Ah -> 1Ah
- changed R16 14h -> 15h, R17 03h -> 02h, R21 00h -> 5Ah, R240.p9 3Ah -> 1Ah
- changed R16 14h -> 15h, R17 03h -> 02h, R20 00h -> 5Ah, R240.p9 3Ah -> 1Ah, R244.p9 5Ah
";

#[test]
fn bytes_and_changes() {
    assert_table(START, BYTES_AND_CHANGES);
    assert_table(RECORDS, BYTES_AND_CHANGES_OF_RECORDS);
}

const FIELDS_OF_BYTES: &str = "\
set CICR IEN=1 CPL=5
set EIVR 4Ah
set NICR 84h
set EIPR 10h
set PPR page=9
set EIPLR groupB=2
read R0
+ CICR IEN=1 CPL=5 | CICR GCEN=1 TLIP=0 TLI=0 IEN=1 IAM=0 CPL=5 | CICR 95h | cicr cpl=5 | EIPR INTC0=1 INTB0=0
+ PPR page=9 | PPR 24h | EIPLR E8h | EIPLR groupA=0 groupB=2 | EIVR vector=40h
+ EIPR INTC0=1 | EIVR TLTEV=1 TLIS=0 IAOS=1 EWEN=0 | NICR TLNM=1 HL2=1 HL0=0 HL6=0 | changed nothing
- CICR IEN=0 CPL=5 | CICR IEN=1 CPL=7 | CICR IEN=1 CPL=4 | CICR TLIP=1 | CICR GCEN=1 TLIP=0 TLI=1 IEN=1 IAM=0 CPL=5
- CICR IAM=1 | CICR 97h | EIPR INTC0=0 | EIPR INTC0=1 INTB0=1 | EIVR TLTEV=0 | EIVR TLTEV=1 TLIS=1 | EIVR IAOS=0
- EIVR EWEN=1 | NICR TLNM=0 | NICR HL2=1 HL1=1 | NICR HL3=1 | PPR page=8 | EIPLR groupB=1 | EIVR vector=50h
";

const FIELDS_OF_BYTES_OF_RECORDS: &str = "\
set R240.p9 IP=1 DM=0 IM=1 PRL=5
read R0
+ R240.p9 IP=1 DM=0 IM=1 PRL=5 | R240.p9 2Dh | R240.p9 PRL=5 | R240.p10 IP=0 DM=1 IM=1 PRL=2
- R240.p9 IP=0 | R240.p9 DM=1 | R240.p9 IM=0 | R240.p9 PRL=4 | R240.p9 IP=1 DM=0 IM=1 PRL=7 | R240.p10 IP=1
- R240.p10 PRL=5
";

#[test]
fn fields_of_bytes() {
    assert_table(START, FIELDS_OF_BYTES);
    assert_table(RECORDS, FIELDS_OF_BYTES_OF_RECORDS);
}

/// As with `set`: a byte that is no record's IDCR has no IP, and an expectation of it says nothing.
#[test]
fn fields_of_no_idcr() {
    for place in ["R240.p8", "R241.p9", "R250.p9", "R240.p63"] {
        for (before, after) in [("set PLACE IP=0\n", ""), ("", "expect PLACE IP=0\n")] {
            let text = format!("{RECORDS}{before}read R1\n{after}").replace("PLACE", place);
            let ran = st9(&["run", "-"], &text).with_code(2);
            assert!(ran.err.contains("no record's IDCR") && ran.out.is_empty(), "{}", ran.err);
        }
    }
}

/// `set` of fields leaves the other bits.
#[test]
fn fields_that_are_set() {
    assert_table(
        "image zero\n",
        "\
set CICR E0h
set CICR IEN=1 CPL=7
set EIMR 81h
set EIMR INTB0=1 INTD1=0
set MODER FFh
read R0
+ CICR F7h | EIMR 05h
- CICR 17h | CICR E0h | EIMR 85h | EIMR 04h

set CICR FFh
set CICR CPL=2 IAM=0
read R0
+ CICR F2h
- CICR F7h | CICR 02h
",
    );
}

/// Two external sources and two records with names.
const NAMES: &str = "\
name FAN INTC0
name Heat INTB0
name UART CH0
name SPI channel 1
";

const NAMES_OF_ONES_OWN: &str = "\
set EIPR FAN=1 HEAT=0
set EIMR 00h
set EIMR heat=1
read R1
+ EIPR FAN=1 Heat=0 | EIPR 10h | EIMR 04h
- EIPR FAN=0 | EIPR FAN=1 HEAT=1 | EIMR FAN=1

edge FAN falling
+ raised FAN | raised fan | raised INTC0 | raised INTC0 (FAN)
- raised HEAT | raised UART | merged FAN | FAN not selected

set EIPR 04h
edge heat falling
+ merged Heat | merged HEAT
- merged FAN | raised HEAT

edge FAN rising
+ FAN not selected
- Heat not selected | raised FAN

request UART
+ raised UART | raised CH0
- raised SPI | merged UART | raised FAN

set PPR 00h
set EIPR 14h
write EIPR 00h
+ erased FAN HEAT | erased Heat, FAN | erased 14h: HEAT, FAN | erased INTB0 FAN
- erased FAN | erased HEAT | erased FAN HEAT UART

set R240.p9 3Ah
write R240 1Ah
+ erased IP of UART | erased IP of channel 0 (UART)
- erased IP of SPI | erased IP of FAN | written

set EIPR 10h
arbitrate
+ acknowledged FAN, level 4, vector 48h | acknowledged INTC0 (FAN), level 4, vector 48h
- acknowledged HEAT, level 4, vector 48h | acknowledged FAN, level 3 | acknowledged UART

set R240.p9 3Ah
arbitrate
+ DMA of UART | DMA of channel 0 (UART): one byte moved
- DMA of SPI | DMA of UART block ended | acknowledged UART

set R240.p9 2Ah
arbitrate
+ acknowledged UART, level 2, vector 34h
- acknowledged SPI, level 2, vector 34h | acknowledged FAN

set EIPR 10h
wait FAN
+ acknowledged by arbitration 1 at step 0
- never
arbitrate

set EIPR 10h
wait HEAT
+ never
- acknowledged
arbitrate

set R240.p9 2Ah
wait uart
+ acknowledged by arbitration 1 at step 0
- never
arbitrate

set R240.p9 0Ah
set R240.p10 0Ah
set EIPR 10h
bound FAN
+ by arbitration 1 at the latest
- none: not pending
arbitrate

set R240.p9 0Ah
set R240.p10 0Ah
set EIPR 10h
bound SPI
+ none: not pending
- by arbitration 1 at the latest
arbitrate

set EIPR 10h
run
+ done 1 step last acknowledged FAN
- done 1 step last acknowledged HEAT
arbitrate
";

#[test]
fn names_of_ones_own() {
    let head = format!("{RECORDS}{NAMES}");
    assert_table(&head, NAMES_OF_ONES_OWN);
}

/// Six lines: INTC0 is pending at level 0, and TLIP, which is not enabled.
const BEFORE_TOLD: &str = "\
image zero
name FAN INTC0
set EIMR 10h
set EIVR 46h
set EIPR 10h
set CICR D7h
";

/// The line of an expectation that is not met, one row at least for each kind: statement, what is expected, as it is
/// written, and what came, as it is printed.
const TOLD: &str = "\
read CICR => byte 87h => byte D7h (GCEN, TLIP, IEN, CPL 7)
read R16 => Byte, 14H => byte 00h
write R16 5 => erased INTB0, INTC0 => written
write EIPR 04h => written => erased 10h: INTC0 (FAN) (sets INTB0 pending)
write CICR 17h => written => erased TLIP
edge INTC0 falling => raised => merged INTC0 (FAN) (already pending)
edge INTB0 falling => merged INTB0 => raised INTB0
edge FAN rising => raised => INTC0 (FAN) not selected (EITR bit 4 is 0: falling edges)
watchdog => raised => INTA0 not selected (IAOS 1: pin 0 is the source of INTA0); TLIP not selected (TLIS 1: NMI is the source of TLIP)
arbitrate => none => acknowledged INTC0 (FAN), level 0, vector 48h
reset => returned => reset (erases INTC0 (FAN), TLIP)
read R256 => byte 00h => refused with 3 (register read or written not modelled or over 255; viewed page over 63)
edge 8 0 => refused 3 => refused with 4 (pin over 7, direction over 1, record or source number that isn't there)
step FFFFFFFFFFFFFFFFh => refused 3 => refused with 7 (step or trigger kind unknown)
view 64 => refused 4 => refused with 3 (register read or written not modelled or over 255; viewed page over 63)
view 1 => refused 3 => bytes 00h 00h 00h 00h 00h 00h 00h 00h 00h 00h 00h 00h 00h 00h 00h 00h
run => done 1 step => done: 0 steps, last answer: none (the list is empty)
wait FAN => acknowledged => not acknowledged, the list ended after 0 arbitrations
bound INTB0 => none: masked => none: the source is not pending
handler bound FAN => none => by arbitration 1 at the latest, H 0, E 0 (the handlers' claim; the list has no arbitration)
bound FAN => none => by arbitration 1 at the latest, H 0, E 0 (demand 3; the list has no arbitration)
read R16 => EIPR 11h => EIPR 10h
read R16 => CICR CPL=6 => CICR D7h (GCEN 1, TLIP 1, TLI 0, IEN 1, IAM 0, CPL 7)
read R16 => MARK 1 => MARK 00h
read R16 => R243.p9 1 => R243.p9 00h
read R16 => changed R16 1 => changed nothing
write R16 5 => changed nothing => changed R16 00h -> 05h
arbitrate => changed CICR 87h => changed CICR D7h -> C7h, EIPR 10h -> 00h";

#[test]
fn unmet_ones_are_told_in_full() {
    let folder = folder("told");
    for row in TOLD.lines() {
        let [statement, expected, came] = row.split(" => ").collect::<Vec<_>>()[..] else {
            panic!("{row}");
        };
        let text = format!("{BEFORE_TOLD}{statement}\n  expect {expected}  # a comment\n");
        std::fs::write(folder.join("a b.st9"), text).expect("a scenario");
        let code = if came.starts_with("refused") { 1 } else { 3 };
        for quiet in [&[][..], &["--quiet"]] {
            let ran = st9_in(&folder, &[&["run", "a b.st9"], quiet].concat(), b"").with_code(code);
            let line = format!("a b.st9:8: expected {expected}; came {came}");
            assert!(ran.out.lines().any(|told| told == line), "{line}\n{}", ran.out);
        }
        let ran = st9_in(&folder, &["run", "a b.st9", "--json"], b"").with_code(code);
        let told =
            objects(&ran.out).into_iter().find(|object| object.text("type") == "expectation");
        let told = told.expect("an object");
        let members = ["file", "expected", "came"].map(|name| told.text(name));
        assert_eq!(members, ["a b.st9", expected, came]);
        assert_eq!((told.number("line"), told.truth("met")), (8, false));
        assert!(told.text("statement").starts_with(statement.split(' ').next().expect("a word")));
    }
}

/// A word that is none: the file is bad, nothing is run.
#[test]
fn what_cannot_be_expected() {
    let rows = "| byte | byte 256 | byte 14h 15h | erased | erased 14h INTB0 | none: foo \
                | acknowledged INTE0 | acknowledged INTB0 level | acknowledged UNKNOWN | changed | changed R5 \
                | changed nothing R5 1 | changed R240 1 | done | refused | refused 0 | refused 9 | refused three \
                | returned now | CICR | CICR 97h 87h | CICR IEN=2 | CICR CPL=8 | CICR FOO=1 | R5 R6 | R256 0 \
                | R240.p64 0 | bytes 0 0 0 0 0 0 0 0 0 0 0 0 0 0 0 | bytes 0 0 0 0 0 0 0 0 0 0 0 0 0 0 0 0 0 \
                | never ever | DMA | DMA of | none ( | none ) | (none) | nonsense";
    for words in rows.split('|') {
        let words = words.trim();
        let ran = st9(&["run", "-"], &format!("{START}arbitrate\nexpect {words}\n")).with_code(2);
        assert_eq!(ran.out, "", "{words}");
        assert!(
            ran.err.starts_with("-:7: ") && ran.err.contains("expected"),
            "{words}: {}",
            ran.err
        );
    }
    for text in
        ["expect none\narbitrate\n", "set R1 1\nexpect CICR 97h\n", "expect changed nothing\n"]
    {
        let ran = st9(&["run", "-"], &format!("{START}{text}")).with_code(2);
        assert!(ran.err.contains("before a step"), "{}", ran.err);
    }
}

/// Every line of the help that begins with `expect` is one that the command reads.
#[test]
fn forms_of_the_help() {
    let help = st9(&["help", "expect"], "").with_code(0).out;
    let mut forms = vec![];
    for line in help.lines().filter_map(|line| line.strip_prefix("  expect ")) {
        let form =
            line.split("  ").next().expect("a form").replace("00h 01h ..", &"00h ".repeat(16));
        forms.extend(form.split(", expect ").map(str::to_string));
    }
    assert!(forms.len() >= 24, "{forms:?}");
    for form in forms {
        let record = "channel page=9 idcr=240 ivr=241 dcpr=242 dapr=243 data=244 in\n";
        let scenario = format!("{START}{record}arbitrate\nexpect {form}\n");
        let ran = st9(&["run", "-"], &scenario);
        assert!(matches!(ran.code, Some(0 | 3)), "{form}: {}", ran.err);
    }
}

/// Lines may end with CRLF, begin with blanks and tabs, and end with a comment; case does not matter.
#[test]
fn lines_in_other_dress() {
    let scenario = format!(
        "{START}NAME Fan INTC0\n\tcase Of Its Own # a comment\nEdge FAN Falling\n\tExpect\tRaised fan # so\n\
         expect raised,INTC0\nWAIT fan\nEXPECT Acknowledged BY Arbitration 1 AT step 1\narbitrate\n\
         eXpect acknowledged Fan LEVEL 4 VECTOR 0x48\nexpect CHANGED cicr 97h -> 87H, eipr 10H -> 0\n"
    );
    for text in [scenario.clone(), scenario.replace('\n', "\r\n")] {
        let ran = st9(&["test", "-"], &text).with_code(0);
        assert_eq!(ran.out, "1 case: 1 passed, 0 failed; 5 expectations: 5 met, 0 unmet\n");
    }
}

/// A refusal with another number than the expected one: it is no refusal as expected.
#[test]
fn another_refusal_is_not_the_expected_one() {
    for statements in ["read R256\nexpect refused 4\n", "edge 8 0\nexpect refused 3\n"] {
        let scenario = format!("{START}{statements}read R1\n");
        let ran = st9(&["run", "-"], &scenario);
        assert_ne!(ran.code, Some(0), "{}", ran.out);
        assert!(!ran.out.contains("refused as expected"), "{}", ran.out);
        let ran = st9(&["run", "-", "--json"], &scenario);
        let end = objects(&ran.out).pop().expect("a result");
        assert_eq!((end.number("unmet"), end.number("refused_as_expected")), (1, 0));
        st9(&["test", "-"], &scenario).with_code(3);
    }
}
