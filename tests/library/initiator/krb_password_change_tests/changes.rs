//! Changes of a password: of EXAMPLE.COM, from `secret` to `newpass`, on the machine `pc`, with the context's number 7, at
//! 1700000000123456, each step with the random octets 00 to 3f.

pub const DONE: &str = "\
     note the password is changed\n\
     change alice tcp://kdc.example:88\n\
     ask tcp tcp://kdc.example:88 CHANGER_ASKS\n\
     reply NEEDS_PREAUTHENTICATION\n\
     ask tcp tcp://kdc.example:88 CHANGER_ASKS_AGAIN\n\
     reply AS_REP_OF_CHANGES\n\
     ask tcp tcp://kdc.example:464 CHANGER_TELLS\n\
     reply PASSWORD_IS_CHANGED\n\
     number 8\n\
     note it is not, for code 4\n\
     change alice tcp://kdc.example:88\n\
     ask tcp tcp://kdc.example:88 CHANGER_ASKS\n\
     reply NEEDS_PREAUTHENTICATION\n\
     ask tcp tcp://kdc.example:88 CHANGER_ASKS_AGAIN\n\
     reply AS_REP_OF_CHANGES\n\
     ask tcp tcp://kdc.example:464 CHANGER_TELLS\n\
     reply 000000aa00aa000100536f51304fa003020105a10302010fa2433041a003020112a23a0438a596337a1559a11be005c804a7e4e0eec2af25\
     3e67b34a00855eaf6caa98cd5fa1a743d85a6127ba7ad7e7ff86ebdb8c7f796f8edcef9581754f304da003020105a103020115a341303fa0030201\
     12a2380436012303694d7d83e99385564c3d7b4c1b07e94660370ced353967ab5fe9a7d71ed7b60b2e8efd915524cc32e670f247aff55b1b42baa5\
     \n\
     refused WrongCredentialHandle ResultCode 4\n\
     note changed over HTTPS: the proxy stays, and is told the realm\n\
     change alice https://p.example/k\n\
     ask https https://p.example/k CHANGER_ASKS_OVER_HTTPS\n\
     reply NEEDS_PREAUTHENTICATION_OVER_HTTPS\n\
     ask https https://p.example/k CHANGER_ASKS_AGAIN_OVER_HTTPS\n\
     reply AS_REP_OF_CHANGES_OVER_HTTPS\n\
     ask https https://p.example/k CHANGER_TELLS_OVER_HTTPS\n\
     reply 3081b4a081b10481ae000000aa00aa000100536f51304fa003020105a10302010fa2433041a003020112a23a0438a596337a1559a11be005\
     c804a7e4e0eec2af253e67b34a00855eaf6caa98cd5fa1a743d85a6127ba7ad7e7ff86ebdb8c7f796f8edcef9581754f304da003020105a1030201\
     15a341303fa003020112a2380436012303694d7d83e99385564c3d7b4c1bd1bbce65d16ef847e6dd5241572c817c9e1f77c26dfb03e53fce1c5cf0\
     223002f9b3a748c334\n\
     number 8\n\
     note code 4 over HTTPS\n\
     change alice https://p.example/k\n\
     ask https https://p.example/k CHANGER_ASKS_OVER_HTTPS\n\
     reply NEEDS_PREAUTHENTICATION_OVER_HTTPS\n\
     ask https https://p.example/k CHANGER_ASKS_AGAIN_OVER_HTTPS\n\
     reply AS_REP_OF_CHANGES_OVER_HTTPS\n\
     ask https https://p.example/k CHANGER_TELLS_OVER_HTTPS\n\
     reply 3081b4a081b10481ae000000aa00aa000100536f51304fa003020105a10302010fa2433041a003020112a23a0438a596337a1559a11be005\
     c804a7e4e0eec2af253e67b34a00855eaf6caa98cd5fa1a743d85a6127ba7ad7e7ff86ebdb8c7f796f8edcef9581754f304da003020105a1030201\
     15a341303fa003020112a2380436012303694d7d83e99385564c3d7b4c1b07e94660370ced353967ab5fe9a7d71ed7b60b2e8efd915524cc32e670\
     f247aff55b1b42baa5\n\
     refused WrongCredentialHandle ResultCode 4\n\
     note the length of the whole does not count\n\
     change alice tcp://kdc.example:88\n\
     ask tcp tcp://kdc.example:88 CHANGER_ASKS\n\
     reply NEEDS_PREAUTHENTICATION\n\
     ask tcp tcp://kdc.example:88 CHANGER_ASKS_AGAIN\n\
     reply AS_REP_OF_CHANGES\n\
     ask tcp tcp://kdc.example:464 CHANGER_TELLS\n\
     reply 000000aa00a9000100536f51304fa003020105a10302010fa2433041a003020112a23a0438a596337a1559a11be005c804a7e4e0eec2af25\
     3e67b34a00855eaf6caa98cd5fa1a743d85a6127ba7ad7e7ff86ebdb8c7f796f8edcef9581754f304da003020105a103020115a341303fa0030201\
     12a2380436012303694d7d83e99385564c3d7b4c1bd1bbce65d16ef847e6dd5241572c817c9e1f77c26dfb03e53fce1c5cf0223002f9b3a748c334\
     \n\
     number 8";

pub const ENDED_EARLY: &str = "\
     note a name past ASCII\n\
     change \u{e4}lice tcp://kdc.example:88\n\
     refused InternalError NotAscii\n\
     note no KDC\n\
     change alice -\n\
     refused NoAuthenticatingAuthority NoKdc\n\
     note a scheme that is not known\n\
     change alice ftp://kdc.example\n\
     refused InvalidParameter Scheme\n\
     note no first reply\n\
     change alice tcp://kdc.example:88\n\
     ask tcp tcp://kdc.example:88 CHANGER_ASKS\n\
     fault 5\n\
     refused NoAuthenticatingAuthority Network 5\n\
     note one of three octets\n\
     change alice tcp://kdc.example:88\n\
     ask tcp tcp://kdc.example:88 CHANGER_ASKS\n\
     reply 000000\n\
     refused InternalError ReplyShort\n\
     note an AS-REP at first\n\
     change alice tcp://kdc.example:88\n\
     ask tcp tcp://kdc.example:88 CHANGER_ASKS\n\
     reply AS_REP_OF_CHANGES\n\
     refused InvalidToken EarlyAsRep\n\
     note neither that nor a KRB-ERROR\n\
     change alice tcp://kdc.example:88\n\
     ask tcp tcp://kdc.example:88 CHANGER_ASKS\n\
     reply PASSWORD_IS_CHANGED\n\
     refused InvalidToken Shape\n\
     note a KRB-ERROR in the place of the AS-REP\n\
     change alice tcp://kdc.example:88\n\
     ask tcp tcp://kdc.example:88 CHANGER_ASKS\n\
     reply NEEDS_PREAUTHENTICATION\n\
     ask tcp tcp://kdc.example:88 CHANGER_ASKS_AGAIN\n\
     reply 0000005f7e5d305ba003020105a10302011ea411180f32303233313131343232313332305aa506020400000000a603020125a90d1b0b4558\
     414d504c452e434f4daa20301ea003020102a11730151b066b72627467741b0b4558414d504c452e434f4d\n\
     refused TimeSkew Kdc 37\n\
     note an altered AS-REP\n\
     change alice tcp://kdc.example:88\n\
     ask tcp tcp://kdc.example:88 CHANGER_ASKS\n\
     reply NEEDS_PREAUTHENTICATION\n\
     ask tcp tcp://kdc.example:88 CHANGER_ASKS_AGAIN\n\
     reply 000001b56b8201b1308201ada003020105a10302010ba30d1b0b4558414d504c452e434f4da4123010a003020101a10930071b05616c6963\
     65a58184618181307fa003020105a10d1b0b4558414d504c452e434f4da220301ea003020102a11730151b066b72627467741b0b4558414d504c45\
     2e434f4da3473045a003020112a23e043c3c434a51585f666d747b828990979ea5acb3bac1c8cfd6dde4ebf2f900070e151c232a31383f464d545b\
     626970777e858c939aa1a8afb6bdc4cbd2d9a681f63081f3a003020112a281eb0481e88f679d9820113b1a631a2b53fe82163274663dda046fe982\
     251b8b92954170c2426fe153b9365bda963e2aababf15689421232407cb0f955961b00b5c3126a0a262410a67041a33a9d1cccef0a0718109d1979\
     fd28a597cd7a78d2262297ffa715212bb349bd8dcf7f30e77b2f49466cb1d5707d214e047c295fb60921b3add7b6d508f5839fed9af6e7f0c891dd\
     d610a94f31b37abd71db1953132b706be88699105c3fe0b45b58bc89d6c2cbf8f1607c994b53734017b0d45779a07f77b35421d25de58e78a21129\
     e4d43864a079e2bf23310539b00d3e46343870cf961e1e19da02e3524436ff\n\
     refused MessageAltered Altered\n\
     note an AS-REP whose key has another length than those of its suite\n\
     change alice tcp://kdc.example:88\n\
     ask tcp tcp://kdc.example:88 CHANGER_ASKS\n\
     reply NEEDS_PREAUTHENTICATION\n\
     ask tcp tcp://kdc.example:88 CHANGER_ASKS_AGAIN\n\
     reply AS_REP_OF_AES_128\n\
     refused InvalidParameter KeyLength\n\
     note a URL without a host takes no port\n\
     change alice tcp://\n\
     ask tcp tcp:// CHANGER_ASKS\n\
     reply NEEDS_PREAUTHENTICATION\n\
     ask tcp tcp:// CHANGER_ASKS_AGAIN\n\
     reply AS_REP_OF_CHANGES\n\
     refused InvalidParameter Port";

pub const NO_ANSWER: &str = "\
     note no third reply\n\
     change alice tcp://kdc.example:88\n\
     ask tcp tcp://kdc.example:88 CHANGER_ASKS\n\
     reply NEEDS_PREAUTHENTICATION\n\
     ask tcp tcp://kdc.example:88 CHANGER_ASKS_AGAIN\n\
     reply AS_REP_OF_CHANGES\n\
     ask tcp tcp://kdc.example:464 CHANGER_TELLS\n\
     fault 7\n\
     refused NoAuthenticatingAuthority Network 7\n\
     note an AP-REQ in the place of the AP-REP\n\
     change alice tcp://kdc.example:88\n\
     ask tcp tcp://kdc.example:88 CHANGER_ASKS\n\
     reply NEEDS_PREAUTHENTICATION\n\
     ask tcp tcp://kdc.example:88 CHANGER_ASKS_AGAIN\n\
     reply AS_REP_OF_CHANGES\n\
     ask tcp tcp://kdc.example:464 CHANGER_TELLS\n\
     reply 000001a201a20001014b6e82014730820143a003020105a10302010ea20703050000000000a38184618181307fa003020105a10d1b0b4558\
     414d504c452e434f4da220301ea003020102a11730151b066b72627467741b0b4558414d504c452e434f4da3473045a003020112a23e043c3c434a\
     51585f666d747b828990979ea5acb3bac1c8cfd6dde4ebf2f900070e151c232a31383f464d545b626970777e858c939aa1a8afb6bdc4cbd2d9a481\
     a63081a3a003020112a2819b048198b600a723d2792a1cc4a16613dff02fbc3b33684b5a2604a83010ce58e565478a127d8a3336b9b1c8a61185c3\
     a43666cbb0215eb566cbdb824ba8124732fdc4922fc85ab1e15b043a7a3cdc8aefe07586b9ff4f19d2b5248dbbc956ef1893c9f46a6f9f868f3c74\
     f1cf9f4995174e7d2afccadcca528e3439232891e99b31048d4293d039a8800fc567c5edf5d86a789506d04d8ff792668f754f304da003020105a1\
     03020115a341303fa003020112a2380436012303694d7d83e99385564c3d7b4c1bd1bbce65d16ef847e6dd5241572c817c9e1f77c26dfb03e53fce\
     1c5cf0223002f9b3a748c334\n\
     refused InvalidToken Shape\n\
     note a KRB-ERROR without an AP-REP\n\
     change alice tcp://kdc.example:88\n\
     ask tcp tcp://kdc.example:88 CHANGER_ASKS\n\
     reply NEEDS_PREAUTHENTICATION\n\
     ask tcp tcp://kdc.example:88 CHANGER_ASKS_AGAIN\n\
     reply AS_REP_OF_CHANGES\n\
     ask tcp tcp://kdc.example:464 CHANGER_TELLS\n\
     reply 000000950095000100007e818c308189a003020105a10302011ea411180f32303233313131343232313332305aa506020400000000a60302\
     0119a90d1b0b4558414d504c452e434f4daa20301ea003020102a11730151b066b72627467741b0b4558414d504c452e434f4dac2c042a30283026\
     a103020113a21f041d301b3019a003020112a1121b104558414d504c452e434f4d616c696365\n\
     refused InvalidToken Shape\n\
     note a length of the AP-REP that is too long by one\n\
     change alice tcp://kdc.example:88\n\
     ask tcp tcp://kdc.example:88 CHANGER_ASKS\n\
     reply NEEDS_PREAUTHENTICATION\n\
     ask tcp tcp://kdc.example:88 CHANGER_ASKS_AGAIN\n\
     reply AS_REP_OF_CHANGES\n\
     ask tcp tcp://kdc.example:464 CHANGER_TELLS\n\
     reply 000000aa00aa000100546f51304fa003020105a10302010fa2433041a003020112a23a0438a596337a1559a11be005c804a7e4e0eec2af25\
     3e67b34a00855eaf6caa98cd5fa1a743d85a6127ba7ad7e7ff86ebdb8c7f796f8edcef9581754f304da003020105a103020115a341303fa0030201\
     12a2380436012303694d7d83e99385564c3d7b4c1bd1bbce65d16ef847e6dd5241572c817c9e1f77c26dfb03e53fce1c5cf0223002f9b3a748c334\
     \n\
     refused InvalidToken Shape";

pub const NOTHING_IN_THE_ANSWER: &str = "\
     note a sealed part of 27 octets\n\
     change alice tcp://kdc.example:88\n\
     ask tcp tcp://kdc.example:88 CHANGER_ASKS\n\
     reply NEEDS_PREAUTHENTICATION\n\
     ask tcp tcp://kdc.example:88 CHANGER_ASKS_AGAIN\n\
     reply AS_REP_OF_CHANGES\n\
     ask tcp tcp://kdc.example:464 CHANGER_TELLS\n\
     reply 0000008f008f000100536f51304fa003020105a10302010fa2433041a003020112a23a0438a596337a1559a11be005c804a7e4e0eec2af25\
     3e67b34a00855eaf6caa98cd5fa1a743d85a6127ba7ad7e7ff86ebdb8c7f796f8edcef958175343032a003020105a103020115a3263024a0030201\
     12a21d041b012303694d7d83e99385564c3d7b4c1bd1bbce65d16ef847e6dd52\n\
     refused DecryptFailure Short\n\
     note an altered octet\n\
     change alice tcp://kdc.example:88\n\
     ask tcp tcp://kdc.example:88 CHANGER_ASKS\n\
     reply NEEDS_PREAUTHENTICATION\n\
     ask tcp tcp://kdc.example:88 CHANGER_ASKS_AGAIN\n\
     reply AS_REP_OF_CHANGES\n\
     ask tcp tcp://kdc.example:464 CHANGER_TELLS\n\
     reply 000000aa00aa000100536f51304fa003020105a10302010fa2433041a003020112a23a0438a596337a1559a11be005c804a7e4e0eec2af25\
     3e67b34a00855eaf6caa98cd5fa1a743d85a6127ba7ad7e7ff86ebdb8c7f796f8edcef9581754f304da003020105a103020115a341303fa0030201\
     12a2380436012303694d7d83e99385564c3d7b4c1bd1bbce65d06ef847e6dd5241572c817c9e1f77c26dfb03e53fce1c5cf0223002f9b3a748c334\
     \n\
     refused MessageAltered Altered\n\
     note a sealed part that is no EncKrbPrivPart\n\
     change alice tcp://kdc.example:88\n\
     ask tcp tcp://kdc.example:88 CHANGER_ASKS\n\
     reply NEEDS_PREAUTHENTICATION\n\
     ask tcp tcp://kdc.example:88 CHANGER_ASKS_AGAIN\n\
     reply AS_REP_OF_CHANGES\n\
     ask tcp tcp://kdc.example:464 CHANGER_TELLS\n\
     reply 000000920092000100536f51304fa003020105a10302010fa2433041a003020112a23a0438a596337a1559a11be005c804a7e4e0eec2af25\
     3e67b34a00855eaf6caa98cd5fa1a743d85a6127ba7ad7e7ff86ebdb8c7f796f8edcef958175373035a003020105a103020115a3293027a0030201\
     12a220041eef01e815e5ce5a349697c208a74a1cf4635191949c693975015f1c70232a\n\
     refused InvalidToken Inner\n\
     note a result of one octet\n\
     change alice tcp://kdc.example:88\n\
     ask tcp tcp://kdc.example:88 CHANGER_ASKS\n\
     reply NEEDS_PREAUTHENTICATION\n\
     ask tcp tcp://kdc.example:88 CHANGER_ASKS_AGAIN\n\
     reply AS_REP_OF_CHANGES\n\
     ask tcp tcp://kdc.example:464 CHANGER_TELLS\n\
     reply 000000a900a9000100536f51304fa003020105a10302010fa2433041a003020112a23a0438a596337a1559a11be005c804a7e4e0eec2af25\
     3e67b34a00855eaf6caa98cd5fa1a743d85a6127ba7ad7e7ff86ebdb8c7f796f8edcef9581754e304ca003020105a103020115a340303ea0030201\
     12a23704356351b8f51717eb730626aa5318df4626c3372366ec1d6ea65e6c0287d6843ba50b15b7320c09b1bc937f17214b3f0c332f2c18919e\n\
     refused InvalidToken UserData";

/// By the rules of the RFCs.
pub const BY_RFC: &str = "\
     note the AS-REP repeats the nonce, the client and kadmin/changepw\n\
     change alice tcp://kdc.example:88\n\
     rules 197119\n\
     ask tcp tcp://kdc.example:88 CHANGER_ASKS\n\
     reply NEEDS_PREAUTHENTICATION\n\
     ask tcp tcp://kdc.example:88 CHANGER_ASKS_AGAIN\n\
     reply 000001b26b8201ae308201aaa003020105a10302010ba30d1b0b4558414d504c452e434f4da4123010a003020101a10930071b05616c6963\
     65a58184618181307fa003020105a10d1b0b4558414d504c452e434f4da220301ea003020102a11730151b066b72627467741b0b4558414d504c45\
     2e434f4da3473045a003020112a23e043c3c434a51585f666d747b828990979ea5acb3bac1c8cfd6dde4ebf2f900070e151c232a31383f464d545b\
     626970777e858c939aa1a8afb6bdc4cbd2d9a681f33081f0a003020112a281e80481e58f679d9820113b1a631a2b53fe821632d554259944429098\
     ddee634efb832788af7e728def11ea01a3f51b8b747296e7cc4e1a698913ba8c634d3d1592f8c9a108797e8dc7560747d612da5ba252d865b13293\
     2533da005f573860d1a40d9ca3d91d671ec04dfb002c9e451be55aae84470648450aac5fd8e7ac34339cde0fbe41886ed68d97dc50fdf246e0bc2a\
     7fe49282c3ade004ce0c5bc7ce23c8a307d37dce19f8147571e25dcb092da15beb62b32d57704edff79a73c5ffe01e4b2a24d2b9b49a9d71b0e12b\
     02a755b471000a9d6ba0f4486cdaf1bf891cde1140b877e99b1dd01b\n\
     ask tcp tcp://kdc.example:464 CHANGER_TELLS\n\
     reply PASSWORD_IS_CHANGED\n\
     number 8\n\
     note it has ended, less than 300 seconds ago\n\
     change alice tcp://kdc.example:88\n\
     rules 197119\n\
     ask tcp tcp://kdc.example:88 CHANGER_ASKS\n\
     reply NEEDS_PREAUTHENTICATION\n\
     ask tcp tcp://kdc.example:88 CHANGER_ASKS_AGAIN\n\
     reply 000001b26b8201ae308201aaa003020105a10302010ba30d1b0b4558414d504c452e434f4da4123010a003020101a10930071b05616c6963\
     65a58184618181307fa003020105a10d1b0b4558414d504c452e434f4da220301ea003020102a11730151b066b72627467741b0b4558414d504c45\
     2e434f4da3473045a003020112a23e043c3c434a51585f666d747b828990979ea5acb3bac1c8cfd6dde4ebf2f900070e151c232a31383f464d545b\
     626970777e858c939aa1a8afb6bdc4cbd2d9a681f33081f0a003020112a281e80481e58f679d9820113b1a631a2b53fe821632d554259944429098\
     ddee634efb832788af7e728def11ea01a3f51b8b747296e7cc4e1a698913ba8c634d3d1592f8c9a108797e8dc7560747d612da5ba252d865b13293\
     2533da005f573860d1a40d9ca3d91d671ec04dfb002c9e451be55aae84470648450aac5fd8e7ac34339cde0fbe41886ed68d97dc50fdf246e0bc2a\
     7fe40d4105a53ca1cbec61860af3e1d16fe322f19a5f346140df1be2669de60003c02699704ea54dcdc9328023e7602e3e00aeda0b022ede130714\
     ea0a9f73c0ad0a5fd4ffba1e8d3d503f5764d840909addcc4f5a7fa5\n\
     ask tcp tcp://kdc.example:464 CHANGER_TELLS\n\
     reply PASSWORD_IS_CHANGED\n\
     number 8\n\
     note of another nonce\n\
     change alice tcp://kdc.example:88\n\
     rules 197119\n\
     ask tcp tcp://kdc.example:88 CHANGER_ASKS\n\
     reply NEEDS_PREAUTHENTICATION\n\
     ask tcp tcp://kdc.example:88 CHANGER_ASKS_AGAIN\n\
     reply AS_REP_OF_CHANGES\n\
     refused InvalidToken Nonce\n\
     note of another service\n\
     change alice tcp://kdc.example:88\n\
     rules 197119\n\
     ask tcp tcp://kdc.example:88 CHANGER_ASKS\n\
     reply NEEDS_PREAUTHENTICATION\n\
     ask tcp tcp://kdc.example:88 CHANGER_ASKS_AGAIN\n\
     reply 000001b56b8201b1308201ada003020105a10302010ba30d1b0b4558414d504c452e434f4da4123010a003020101a10930071b05616c6963\
     65a58184618181307fa003020105a10d1b0b4558414d504c452e434f4da220301ea003020102a11730151b066b72627467741b0b4558414d504c45\
     2e434f4da3473045a003020112a23e043c3c434a51585f666d747b828990979ea5acb3bac1c8cfd6dde4ebf2f900070e151c232a31383f464d545b\
     626970777e858c939aa1a8afb6bdc4cbd2d9a681f63081f3a003020112a281eb0481e88f679d9820113b1a631a2b53fe82163274663dda046fe982\
     251b8b92954170c2426fe153b9365bda963e2aababf15689421232407cb0f955961b00b5c3126a0a262410a67041a33a9d1cccef0a0718109d1979\
     fd28a597cd7a78d2262297ffa7800e066feafdeb6812e824eff2b3e91133c1e2ddd24ca5c3dab98a1f429a16773ce6ae4a5644492efd16bc2ecca7\
     9bbef575883650b39cf76c8af3d8d54d73aa57c2e5a2486eed7610b1c8642aeec2c01c220b6b301d105674301244655716205839f456c3775f543a\
     6a24643f8fb036b512d82e4d076fecf45754098925759ccec239e5fa1a4b36\n\
     refused InvalidToken ReplyNames\n\
     note it has ended, more than 300 seconds ago\n\
     change alice tcp://kdc.example:88\n\
     rules 197119\n\
     ask tcp tcp://kdc.example:88 CHANGER_ASKS\n\
     reply NEEDS_PREAUTHENTICATION\n\
     ask tcp tcp://kdc.example:88 CHANGER_ASKS_AGAIN\n\
     reply 000001b26b8201ae308201aaa003020105a10302010ba30d1b0b4558414d504c452e434f4da4123010a003020101a10930071b05616c6963\
     65a58184618181307fa003020105a10d1b0b4558414d504c452e434f4da220301ea003020102a11730151b066b72627467741b0b4558414d504c45\
     2e434f4da3473045a003020112a23e043c3c434a51585f666d747b828990979ea5acb3bac1c8cfd6dde4ebf2f900070e151c232a31383f464d545b\
     626970777e858c939aa1a8afb6bdc4cbd2d9a681f33081f0a003020112a281e80481e58f679d9820113b1a631a2b53fe821632d554259944429098\
     ddee634efb832788af7e728def11ea01a3f51b8b747296e7cc4e1a698913ba8c634d3d1592f8c9a108797e8dc7560747d612da5ba252d865b13293\
     2533da005f573860d1a40d9ca3d91d671ec04dfb002c9e451be55aae84470648450aac5fd8e7ac34339cde0fbe41886ed68d97dc50fdf246e0bc2a\
     7fe40d4105a53ca1cbec61860af3e1d16fe319379891531cb77e4eb473ec4c96a7108e4e189ac7e41f7dae32ce2a2ac438c5ad236c250bfb472a0e\
     5c4efe55d8fd6f7d7abe4aa3b47e25692903dfdc3e294b5d3146e638\n\
     refused TimeSkew ReplyTime";
