//! What the host does: writes, commands, reads and previews (paper 01, "Opening and host bytes"; paper 02, A2).

use super::Part;

events! {
    Host;
    WriteMode "write of MODE" Lists Gauges,
    WriteArLow "write of AR low" Lists Gauges,
    WriteArHigh "write of AR high" Lists Gauges,
    Wrtnac "WRTNAC" Lists Gauges,
    WrtnacAboveLmd "WRTNAC with AR above LMD" Lists Gauges,
    Done "DONE" Lists Gauges,
    Prst "PRST" Lists Gauges,
    Frst "FRST" Lists Gauges,
    ResetOfStandby "PRST or FRST that moves the standby current" Lists Gauges,
    Wrtlmd "WRTLMD" Lists Gauges,
    WrtlmdCuts "WRTLMD that cuts the charge" Lists Gauges,
    ReadAll "read of all registers" Lists Gauges,
    ReadHalf "read that begins or ends within a pair" Lists Gauges,
    ReadHalfCyct "read that begins or ends within CYCT, above 0" Lists Gauges,
    PreviewWrtnac "preview of WRTNAC" Lists Gauges,
    PreviewDone "preview of DONE" Lists Gauges,
    PreviewPrst "preview of PRST" Lists Gauges,
    PreviewFrst "preview of FRST" Lists Gauges,
    PreviewWrtlmd "preview of WRTLMD" Lists Gauges,
    PreviewWithRun "preview during a run" Lists Gauges,
    PreviewEmpty "preview refused 13 with a reply of 0 bytes" Lists Gauges,
    PreviewShort "preview refused 13 with a reply of 127 bytes" Lists Gauges,
    PreviewLong "preview refused 13 with a reply of 129 bytes" Lists Gauges,
    PreviewKeyAndReply "preview refused 8 with a reply not of 128 bytes" Lists Gauges,
    PreviewNoCommandAndReply "preview refused 9 with a reply not of 128 bytes" Lists Gauges,
    PreviewNotCarriedAndReply "preview refused 10 with a reply not of 128 bytes" Lists Gauges,
    PreviewLmdZeroAndReply "preview refused 11 with a reply not of 128 bytes" Lists Gauges,
    PreviewSavedAndReply "preview refused 14 with a reply not of 128 bytes" Damaged Older,
}
