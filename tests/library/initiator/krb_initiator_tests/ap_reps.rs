//! Answers of a service.

/// Framed.
const FRAMED: &str = "\
     initiator 4294967295 pc host/server.example.com\n\
     keytab EXAMPLE.COM\\alice 18 72e14c8e96dfba330802c689e06448591bc19da4f18500d9d63671d6ce24d52d\n\
     env SSPI_KDC_URL tcp://any.example\n\
     note the AP-REQ\n\
     call M -\n\
     ask tcp tcp://any.example PC_ASKS\n\
     reply NEEDS_PREAUTHENTICATION\n\
     ask tcp tcp://any.example PC_ASKS_AGAIN\n\
     reply AS_REP\n\
     ask tcp tcp://any.example PC_ASKS_FOR_SERVICE\n\
     reply TGS_REP_OF_LAST_NUMBER\n\
     continue 6082021306092a864886f71201020201006e820202308201fea003020105a10302010ea20703050020000000a38201156182011130820\
     10da003020105a10d1b0b4558414d504c452e434f4da2253023a003020102a11c301a1b04686f73741b127365727665722e6578616d706c652e636\
     f6da381cf3081cca003020112a281c40481c15c112a47a169c3267a9ff3afbdc5f126179eb939d1669b6d4c3033c2154b15e507170affa88bdd8b0\
     6aa49b779a104602531976088d214bc08a463fab523069fb7c94ea703b6e00281e48ed27136bca13d61c864e575f489e30a33c70c11b7bd9ba6027\
     437381531a755ffae453277ca7a5eaaf8984e949155f774b66049188699095c77f195e32b49f019b3598f6601434cb5fe852befebef4ca476341c6\
     b34d6fa7ce2fa1e5fa3a7da091cc1ea32013bca694ae5498b2645c1e94afb3888eed5a481cf3081cca003020112a281c40481c13bd422bf2066631\
     a4cc51b56ac3d9376a958791b2b4737d566fa422055f14c9497112400a9ad56428f87ed4292193883aa0911a241383314e358c4acda57ad386b663\
     cf0f7ff94053d42db0b7559c7949c6af12f3de0d9bd114581933c0831faaaa260f78084df8b986a9c5edb7c254914988f540a1980aceea99d1a6d4\
     e101b08973215329427a1165330d31159188d27000d13e71c56243e0b4bcb082b72d1ab808256a63b327635da29a5373e777a6b8caf95072cb10df\
     0e95658dbbdf8fffb\n\
     context ApExchange 4294967295 EXAMPLE.COM - 0\n\
     key 202122232425262728292a2b2c2d2e2f303132333435363738393a3b3c3d3e3f\n\
     note no token\n\
     call - -\n\
     refused InvalidToken Shape\n\
     note a bare AP-REP\n\
     call - BARE_AP_REP_WITHOUT_FRAME\n\
     refused InvalidToken Shape\n\
     note a frame of another token id\n\
     call - 606c06010101006f653063a003020105a10302010fa2573055a003020112a24e044c5b96298e732827e205ccf8c450a262de723f6a817be\
     a71cc5652a29923566423c98b383835db3be89f89bb65a9278188bdaba3af3764b1bd96fc1a7b73a0876c6f621eb9ceb27cb1f529b9b2\n\
     refused InvalidToken Shape\n\
     note a frame whose inside is cut off\n\
     call - 606b06010102006f653063a003020105a10302010fa2573055a003020112a24e044c5b96298e732827e205ccf8c450a262de723f6a817be\
     a71cc5652a29923566423c98b383835db3be89f89bb65a9278188bdaba3af3764b1bd96fc1a7b73a0876c6f621eb9ceb27cb1f529b9\n\
     refused InvalidToken Shape\n\
     note an altered AP-REP\n\
     call - 606c06010102006f653063a003020105a10302010fa2573055a003020112a24e044c608da10e76fc898d661562e4e3ab72e58a02bc3ae1b\
     6ed64da9de518ba355579e0f5d8f1d928e802e41a0c7d00fa670a4ce1ff71899bd99901da605114517a9645b400f12e69218d5fa80fe7\n\
     refused DecryptFailure Reply\n\
     note one in another suite\n\
     call - 606c06010102006f653063a003020105a10302010fa2573055a003020111a24e044ce837b06bbd357602d1a9c0917902c1ad221c507e488\
     1ceb51d102b69ee704bd06ecbc0938922ab29fe2824908acf2b90b81c57b67e05ede322d54d1a07b840dfca3672188037fcae88684135\n\
     refused DecryptFailure Reply\n\
     note one whose inside is no EncAPRepPart\n\
     call - 604006010102006f393037a003020105a10302010fa22b3029a003020112a222042003cfcf2842bfb1d3e3296aa1358dc5495b96298e253\
     0a74bab50f1c290338c17\n\
     refused InvalidToken Inner\n\
     note one without a subkey\n\
     call - 605806010102006f51304fa003020105a10302010fa2433041a003020112a23a04385b96298e732827e205ccf8c450a262de34a43b569e4\
     d2d23b9d392d71fce033bbefef5c40e2c4696ddaca06d6723b7f8840fa6969828e6d0\n\
     refused InvalidToken NoSubKey\n\
     note the answer\n\
     call - 606c06010102006f653063a003020105a10302010fa2573055a003020112a24e044c5b96298e732827e205ccf8c450a262de723f6a817be\
     a71cc5652a29923566423c98b383835db3be89f89bb65a9278188bdaba3af3764b1bd96fc1a7b73a0876c6f621eb9ceb27cb1f529b9b2\n\
     ok -\n\
     context Final 0 EXAMPLE.COM - 0\n\
     key 616e79206b6579";

/// In DCE style.
const IN_DCE_STYLE: &str = "\
     initiator 4294967295 pc host/server.example.com\n\
     keytab EXAMPLE.COM\\alice 18 72e14c8e96dfba330802c689e06448591bc19da4f18500d9d63671d6ce24d52d\n\
     env SSPI_KDC_URL tcp://any.example\n\
     note the AP-REQ\n\
     call ME -\n\
     ask tcp tcp://any.example PC_ASKS\n\
     reply NEEDS_PREAUTHENTICATION\n\
     ask tcp tcp://any.example PC_ASKS_AGAIN\n\
     reply AS_REP\n\
     ask tcp tcp://any.example PC_ASKS_FOR_SERVICE\n\
     reply TGS_REP_OF_LAST_NUMBER\n\
     continue 6e820202308201fea003020105a10302010ea20703050020000000a3820115618201113082010da003020105a10d1b0b4558414d504c4\
     52e434f4da2253023a003020102a11c301a1b04686f73741b127365727665722e6578616d706c652e636f6da381cf3081cca003020112a281c4048\
     1c15c112a47a169c3267a9ff3afbdc5f126179eb939d1669b6d4c3033c2154b15e507170affa88bdd8b06aa49b779a104602531976088d214bc08a\
     463fab523069fb7c94ea703b6e00281e48ed27136bca13d61c864e575f489e30a33c70c11b7bd9ba6027437381531a755ffae453277ca7a5eaaf89\
     84e949155f774b66049188699095c77f195e32b49f019b3598f6601434cb5fe852befebef4ca476341c6b34d6fa7ce2fa1e5fa3a7da091cc1ea320\
     13bca694ae5498b2645c1e94afb3888eed5a481cf3081cca003020112a281c40481c13bd422bf2066631a4cc51b56ac3d9376a958791b2b4737d56\
     6fa422055f14c9497112400a9ad56428f87ed4292193883aa0911a241383314e358c4acda57ad386b663cf0f7ff94053d42db0b7559c7949c6af12\
     f3de0d9bd114581933c0831fa6cc9392835ea736926853752bc931d8e4b95fbcef8d90a0ce839fea9e7a3ac79d29ae20d46d870d9a7ae2bac62b5e\
     97896921384f533e9c337329f0800800a05bfd14e349e9ecff46e9258c34be65d00f5935f6303e2fda2c9f2f473212f257401\n\
     context ApExchange 4294967295 EXAMPLE.COM - 0\n\
     key 202122232425262728292a2b2c2d2e2f303132333435363738393a3b3c3d3e3f\n\
     note no token\n\
     call E -\n\
     refused InvalidToken Shape\n\
     note an AP-REP that is not asked for in DCE style\n\
     call - BARE_AP_REP_WITHOUT_FRAME\n\
     refused InvalidToken Shape\n\
     note one that is cut off\n\
     call E 6f653063a003020105a10302010fa2573055a003020112a24e044c5b96298e732827e205ccf8c450a262de723f6a817bea71cc5652a2992\
     3566423c98b383835db3be89f89bb65a9278188bdaba3af3764b1bd96fc1a7b73a0876c6f621eb9ceb27cb1f529b9\n\
     refused InvalidToken Shape\n\
     note an altered one\n\
     call E 6f653063a003020105a10302010fa2573055a003020112a24e044c608da10e76fc898d661562e4e3ab72e58a02bc3ae1b6ed64da9de518b\
     a355579e0f5d8f1d928e802e41a0c7d00fa670a4ce1ff71899bd99901da605114517a9645b400f12e69218d5fa80fe7\n\
     refused DecryptFailure Reply\n\
     note one in another suite\n\
     call E 6f653063a003020105a10302010fa2573055a003020111a24e044ce837b06bbd357602d1a9c0917902c1ad221c507e4881ceb51d102b69e\
     e704bd06ecbc0938922ab29fe2824908acf2b90b81c57b67e05ede322d54d1a07b840dfca3672188037fcae88684135\n\
     refused DecryptFailure Reply\n\
     note one whose inside is no EncAPRepPart\n\
     call E 6f393037a003020105a10302010fa22b3029a003020112a222042003cfcf2842bfb1d3e3296aa1358dc5495b96298e2530a74bab50f1c29\
     0338c17\n\
     refused InvalidToken Inner\n\
     note one without a subkey\n\
     call E 6f51304fa003020105a10302010fa2433041a003020112a23a04385b96298e732827e205ccf8c450a262de34a43b569e4d2d23b9d392d71\
     fce033bbefef5c40e2c4696ddaca06d6723b7f8840fa6969828e6d0\n\
     refused InvalidToken NoSubKey\n\
     note one without a number\n\
     call E 6f653063a003020105a10302010fa2573055a003020112a24e044c5b96298e732827e205ccf8c450a262de723f6a817bea71cc5652a2992\
     3566423c98b383835db3be89f89bb65a9278188bdaba3af3764b1bd96fc1a7b73a0876c6f621eb9ceb27cb1f529b9b2\n\
     refused InvalidToken NoNumber\n\
     note the answer\n\
     call E 6f6f306da003020105a10302010fa261305fa003020112a25804565b96298e732827e205ccf8c450a262de57da95133a51fe696e3545735\
     b91bb2a1d4ad5a7cccc383e04f06e34f3cd79c41b9bcec2e39b6bb363ca20355c1b23c55b1375b02e7e9b1d076ad40af33461a65b7b09921a6e\n\
     ok 6f5e305ca003020105a10302010fa250304ea003020112a2470445868e5ee6e0cc6d3f9ee1e522d3b431c8d257a087d0de66faa1eda9aee5b7c\
     8bab03ec2d6267578877ce574d1c5531c117f50d69fe480d09aaa75ec07db96176b6674154dd3\n\
     context Final 4294967295 EXAMPLE.COM - 16\n\
     key 616e79206b6579";

/// Tokens that are not the answer to the AP-REQ, and the answer.
const NOT_THE_ANSWER: &str = "\
     initiator 1234 hostname host/server.example.com\n\
     kdc tcp://kdc.example:88\n\
     keytab EXAMPLE.COM\\alice 18 72e14c8e96dfba330802c689e06448591bc19da4f18500d9d63671d6ce24d52d\n\
     note the AP-REQ\n\
     call MRSCI -\n\
     ask tcp tcp://kdc.example:88 HOSTNAME_ASKS\n\
     reply NEEDS_PREAUTHENTICATION\n\
     ask tcp tcp://kdc.example:88 HOSTNAME_ASKS_AGAIN\n\
     reply AS_REP_WITH_SALT\n\
     ask tcp tcp://kdc.example:88 HOSTNAME_ASKS_FOR_SERVICE\n\
     reply TGS_REP\n\
     continue FRAMED_AP_REQ\n\
     context ApExchange 1234 EXAMPLE.COM - 0\n\
     key b769a1ae576139333854a9afee9e05a056becabeb30e20a4ad65383ad83f2a76\n\
     note its own AP-REQ\n\
     call - FRAMED_AP_REQ\n\
     refused InvalidToken Shape\n\
     note the answer with an altered octet\n\
     call - 60819a06092a864886f71201020202006f818a308187a003020105a10302010fa27b3079a003020112a2720470d157a8197cd952977388a\
     823993c069780ceddde6c23cd9298bd27ba6b7296b69dcdc3894af627962889c98df1b31c8bd9f353a8d7e01ef4f832259a7f46ba2b5c63ac81513\
     b04b3fe092f66036e0d9c30116dfc3f6928547e6e345ed185ea4209b227c581dd5a339f205f3eef56773c\n\
     refused DecryptFailure Reply\n\
     note the answer to another AP-REQ\n\
     call - AP_REP_BEHIND_REFERRALS\n\
     refused DecryptFailure Reply\n\
     note a bare one\n\
     call - BARE_AP_REP\n\
     refused InvalidToken Shape\n\
     note the answer\n\
     call - FRAMED_AP_REP\n\
     ok -\n\
     context Final 1235 EXAMPLE.COM - 0\n\
     key 000102030405060708090a0b0c0d0e0f101112131415161718191a1b1c1d1e1f";

pub static SESSIONS: [&str; 3] = [FRAMED, IN_DCE_STYLE, NOT_THE_ANSWER];
