//! Replies that are not what was asked for.

const WRONG_REPLIES: &str = "\
     initiator 7 pc host/server.example.com\n\
     kdc tcp://kdc.example:88\n\
     keytab EXAMPLE.COM\\alice 18 72e14c8e96dfba330802c689e06448591bc19da4f18500d9d63671d6ce24d52d\n\
     note an AS-REP at first\n\
     call - -\n\
     ask tcp tcp://kdc.example:88 PC_ASKS\n\
     reply AS_REP\n\
     refused InvalidToken EarlyAsRep\n\
     note a TGS-REP at first\n\
     call - -\n\
     ask tcp tcp://kdc.example:88 PC_ASKS\n\
     reply TGS_REP_OF_PC\n\
     refused InvalidToken Shape\n\
     note a TGS-REP in the place of the AS-REP\n\
     call - -\n\
     ask tcp tcp://kdc.example:88 PC_ASKS\n\
     reply NEEDS_PREAUTHENTICATION\n\
     ask tcp tcp://kdc.example:88 PC_ASKS_AGAIN\n\
     reply TGS_REP_OF_PC\n\
     refused InvalidToken Shape\n\
     note an AS-REP in the place of the TGS-REP\n\
     call - -\n\
     ask tcp tcp://kdc.example:88 PC_ASKS\n\
     reply NEEDS_PREAUTHENTICATION\n\
     ask tcp tcp://kdc.example:88 PC_ASKS_AGAIN\n\
     reply AS_REP\n\
     ask tcp tcp://kdc.example:88 PC_ASKS_FOR_SERVICE\n\
     reply AS_REP\n\
     refused InvalidToken Shape\n\
     note three octets in the place of the TGS-REP\n\
     call - -\n\
     ask tcp tcp://kdc.example:88 PC_ASKS\n\
     reply NEEDS_PREAUTHENTICATION\n\
     ask tcp tcp://kdc.example:88 PC_ASKS_AGAIN\n\
     reply AS_REP\n\
     ask tcp tcp://kdc.example:88 PC_ASKS_FOR_SERVICE\n\
     reply 000000\n\
     refused InternalError ReplyShort\n\
     note no TGS-REP, for the network failed\n\
     call - -\n\
     ask tcp tcp://kdc.example:88 PC_ASKS\n\
     reply NEEDS_PREAUTHENTICATION\n\
     ask tcp tcp://kdc.example:88 PC_ASKS_AGAIN\n\
     reply AS_REP\n\
     ask tcp tcp://kdc.example:88 PC_ASKS_FOR_SERVICE\n\
     fault 5\n\
     refused NoAuthenticatingAuthority Network 5\n\
     note three octets at first\n\
     call - -\n\
     ask tcp tcp://kdc.example:88 PC_ASKS\n\
     reply 000000\n\
     refused InternalError ReplyShort\n\
     note nothing, for the network failed\n\
     call - -\n\
     ask tcp tcp://kdc.example:88 PC_ASKS\n\
     fault 5\n\
     refused NoAuthenticatingAuthority Network 5\n\
     note an error of code 0 twice\n\
     call - -\n\
     ask tcp tcp://kdc.example:88 PC_ASKS\n\
     reply 0000005f7e5d305ba003020105a10302011ea411180f32303233313131343232313332305aa506020400000000a603020100a90d1b0b4558\
     414d504c452e434f4daa20301ea003020102a11730151b066b72627467741b0b4558414d504c452e434f4d\n\
     ask tcp tcp://kdc.example:88 PC_ASKS_AGAIN\n\
     reply 0000005f7e5d305ba003020105a10302011ea411180f32303233313131343232313332305aa506020400000000a603020100a90d1b0b4558\
     414d504c452e434f4daa20301ea003020102a11730151b066b72627467741b0b4558414d504c452e434f4d\n\
     refused Unknown Kdc 0\n\
     note of code 6\n\
     call - -\n\
     ask tcp tcp://kdc.example:88 PC_ASKS\n\
     reply 0000005f7e5d305ba003020105a10302011ea411180f32303233313131343232313332305aa506020400000000a603020106a90d1b0b4558\
     414d504c452e434f4daa20301ea003020102a11730151b066b72627467741b0b4558414d504c452e434f4d\n\
     ask tcp tcp://kdc.example:88 PC_ASKS_AGAIN\n\
     reply 0000005f7e5d305ba003020105a10302011ea411180f32303233313131343232313332305aa506020400000000a603020106a90d1b0b4558\
     414d504c452e434f4daa20301ea003020102a11730151b066b72627467741b0b4558414d504c452e434f4d\n\
     refused UnknownCredentials Kdc 6\n\
     note of code 24\n\
     call - -\n\
     ask tcp tcp://kdc.example:88 PC_ASKS\n\
     reply 0000005f7e5d305ba003020105a10302011ea411180f32303233313131343232313332305aa506020400000000a603020118a90d1b0b4558\
     414d504c452e434f4daa20301ea003020102a11730151b066b72627467741b0b4558414d504c452e434f4d\n\
     ask tcp tcp://kdc.example:88 PC_ASKS_AGAIN\n\
     reply 0000005f7e5d305ba003020105a10302011ea411180f32303233313131343232313332305aa506020400000000a603020118a90d1b0b4558\
     414d504c452e434f4daa20301ea003020102a11730151b066b72627467741b0b4558414d504c452e434f4d\n\
     refused KdcInvalidRequest Kdc 24\n\
     note of code 37 behind one of code 25\n\
     call - -\n\
     ask tcp tcp://kdc.example:88 PC_ASKS\n\
     reply NEEDS_PREAUTHENTICATION\n\
     ask tcp tcp://kdc.example:88 PC_ASKS_AGAIN\n\
     reply 0000005f7e5d305ba003020105a10302011ea411180f32303233313131343232313332305aa506020400000000a603020125a90d1b0b4558\
     414d504c452e434f4daa20301ea003020102a11730151b066b72627467741b0b4558414d504c452e434f4d\n\
     refused TimeSkew Kdc 37\n\
     note of code 68\n\
     call - -\n\
     ask tcp tcp://kdc.example:88 PC_ASKS\n\
     reply 0000005f7e5d305ba003020105a10302011ea411180f32303233313131343232313332305aa506020400000000a603020144a90d1b0b4558\
     414d504c452e434f4daa20301ea003020102a11730151b066b72627467741b0b4558414d504c452e434f4d\n\
     ask tcp tcp://kdc.example:88 PC_ASKS_AGAIN\n\
     reply 0000005f7e5d305ba003020105a10302011ea411180f32303233313131343232313332305aa506020400000000a603020144a90d1b0b4558\
     414d504c452e434f4daa20301ea003020102a11730151b066b72627467741b0b4558414d504c452e434f4d\n\
     refused NoAuthenticatingAuthority Kdc 68\n\
     note of code 25 and of the last code\n\
     call - -\n\
     ask tcp tcp://kdc.example:88 PC_ASKS\n\
     reply 0000005f7e5d305ba003020105a10302011ea411180f32303233313131343232313332305aa506020400000000a603020119a90d1b0b4558\
     414d504c452e434f4daa20301ea003020102a11730151b066b72627467741b0b4558414d504c452e434f4d\n\
     ask tcp tcp://kdc.example:88 PC_ASKS_AGAIN\n\
     reply 000000637e61305fa003020105a10302011ea411180f32303233313131343232313332305aa506020400000000a607020500ffffffffa90d\
     1b0b4558414d504c452e434f4daa20301ea003020102a11730151b066b72627467741b0b4558414d504c452e434f4d\n\
     refused Unknown Kdc 4294967295";

pub static SESSIONS: [&str; 1] = [WRONG_REPLIES];
