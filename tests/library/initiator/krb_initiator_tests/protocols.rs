//! Requests over each protocol, to each form of a URL, and replies of a proxy.

const TCP: &str = "\
     initiator 9 pc h/s\n\
     kdc tcp://kdc.example:88\n\
     keytab EXAMPLE.COM\\alice 18 72e14c8e96dfba330802c689e06448591bc19da4f18500d9d63671d6ce24d52d\n\
     call - -\n\
     ask tcp tcp://kdc.example:88 PC_ASKS\n\
     fault 0\n\
     refused NoAuthenticatingAuthority Network 0";

const UDP: &str = "\
     initiator 9 pc h/s\n\
     kdc udp://kdc.example:88\n\
     keytab EXAMPLE.COM\\alice 18 72e14c8e96dfba330802c689e06448591bc19da4f18500d9d63671d6ce24d52d\n\
     call - -\n\
     ask udp udp://kdc.example:88 PC_ASKS_OVER_UDP\n\
     fault 0\n\
     refused NoAuthenticatingAuthority Network 0";

const HTTPS: &str = "\
     initiator 9 pc h/s\n\
     kdc https://p.example/k\n\
     keytab EXAMPLE.COM\\alice 18 72e14c8e96dfba330802c689e06448591bc19da4f18500d9d63671d6ce24d52d\n\
     call - -\n\
     ask https https://p.example/k PC_ASKS_OVER_HTTP\n\
     fault 0\n\
     refused NoAuthenticatingAuthority Network 0\n\
     call - -\n\
     ask https https://p.example/k PC_ASKS_OVER_HTTP\n\
     reply -\n\
     refused InvalidToken Shape\n\
     call - -\n\
     ask https https://p.example/k PC_ASKS_OVER_HTTP\n\
     reply 00000000\n\
     refused InvalidToken Shape\n\
     call - -\n\
     ask https https://p.example/k PC_ASKS_OVER_HTTP\n\
     reply 3004a0020400\n\
     refused InternalError ReplyShort\n\
     call - -\n\
     ask https https://p.example/k PC_ASKS_OVER_HTTP\n\
     reply 3007a0050403616263\n\
     refused InternalError ReplyShort\n\
     call - -\n\
     ask https https://p.example/k PC_ASKS_OVER_HTTP\n\
     reply 3008a006040461626364\n\
     refused InvalidToken Shape\n\
     call - -\n\
     ask https https://p.example/k PC_ASKS_OVER_HTTP\n\
     reply NEEDS_PREAUTHENTICATION\n\
     refused InvalidToken Shape\n\
     call - -\n\
     ask https https://p.example/k PC_ASKS_OVER_HTTP\n\
     reply 30819ea081960481930000008f7e818c308189a003020105a10302011ea411180f32303233313131343232313332305aa506020400000000\
     a603020119a90d1b0b4558414d504c452e434f4daa20301ea003020102a11730151b066b72627467741b0b4558414d504c452e434f4dac2c042a30\
     283026a103020113a21f041d301b3019a003020112a1121b104558414d504c452e434f4d616c696365a1031b0158\n\
     ask https https://p.example/k 30820130a082011d04820119000001156a8201113082010da103020105a20302010aa3643062304da1030201\
     02a24604443042a003020112a23b0439ea4e7829e23710c65c8728307afb1e8956549f566c9107497fcae24cfe0777fe26d1a928177cab2f9d7061\
     55c8bb96beed12b7f8345c6efec93011a10402020080a20904073005a0030101ffa4819a308197a00703050000810010a1123010a003020101a109\
     30071b05616c696365a20d1b0b4558414d504c452e434f4da320301ea003020102a11730151b066b72627467741b0b4558414d504c452e434f4da5\
     11180f32303233313131373232313332305aa611180f32303233313131373232313332305aa706020400010203a8083006020112020111a90f300d\
     300ba003020114a10404027063a10d1b0b4558414d504c452e434f4d\n\
     reply 308201c1a08201bd048201b9000001b56b8201b1308201ada003020105a10302010ba30d1b0b4558414d504c452e434f4da4123010a00302\
     0101a10930071b05616c696365a58184618181307fa003020105a10d1b0b4558414d504c452e434f4da220301ea003020102a11730151b066b7262\
     7467741b0b4558414d504c452e434f4da3473045a003020112a23e043c3c434a51585f666d747b828990979ea5acb3bac1c8cfd6dde4ebf2f90007\
     0e151c232a31383f464d545b626970777e858c939aa1a8afb6bdc4cbd2d9a681f63081f3a003020112a281eb0481e88f679d9820113b1a631a2b53\
     fe82163274663dda046fe982251b8b92954170c233f84f1cf4a4ba381edde1cdd7f01dd979beac3538350fc02384f0cd3af31ccab70ffefb8334ee\
     1aaf318d67f2e21eb0d82e273ba9bbc4735e091739d1b591121b1287e05719c3ca572f0e9682cc76bd1c1a62440572f3fd7f89916e65dbb13c6b44\
     3d5d44905f52b8df8e685cf1efb9568302c1626008b3020af9b63f34f1c0efd3e765c1f5048f97dcba4228038fa0388f4885655c64cf34fbb26a4f\
     16cc195e8999ea12a2998466ec2e7fd27f4f3406e83cd29ab5f03f28e0b7dcd858b72dc3d56eb99ae9e177\n\
     ask https https://p.example/k 308201eca08201d9048201d5000001d16c8201cd308201c9a103020105a20302010ca3820167308201633082\
     0148a103020101a282013f0482013b6e82013730820133a003020105a10302010ea20703050000000000a38184618181307fa003020105a10d1b0b\
     4558414d504c452e434f4da220301ea003020102a11730151b066b72627467741b0b4558414d504c452e434f4da3473045a003020112a23e043c3c\
     434a51585f666d747b828990979ea5acb3bac1c8cfd6dde4ebf2f900070e151c232a31383f464d545b626970777e858c939aa1a8afb6bdc4cbd2d9\
     a48196308193a003020112a2818b048188d047549c4f1c6f6cbf128b381b66d06fbed782e7f4e56bee2496e0daeadbf2f653b7bb3f90b43ff32a79\
     9e55e9a44f22ec81c45f0a4e91b01792bf8fb2f807ffd587b2b684ea2913431ad2b2d913c0380ff2610c1d1e98609b56abb07f30847a0ad0d87f6b\
     69693b5be1cd67915cfb303d63b9a3e079f027b6a2053bbdca322e52549c8a7877f1823015a104020200a7a20d040b3009a00703050040000000a4\
     523050a00703050000810000a20d1b0b4558414d504c452e434f4da311300fa003020102a10830061b01681b0173a511180f323032333131313732\
     32313332305aa706020404050607a8083006020112020111a10d1b0b4558414d504c452e434f4d\n\
     reply 308201a1a082019d04820199000001956d8201913082018da003020105a10302010da30d1b0b4558414d504c452e434f4da4123010a00302\
     0101a10930071b05616c696365a57461723070a003020105a10d1b0b4558414d504c452e434f4da211300fa003020102a10830061b01681b0173a3\
     473045a003020112a23e043c3c434a51585f666d747b828990979ea5acb3bac1c8cfd6dde4ebf2f900070e151c232a31383f464d545b626970777e\
     858c939aa1a8afb6bdc4cbd2d9a681e73081e4a003020112a281dc0481d915e3da7e1c280372158382d408b9ce1ec972049ad443f2de58908e854c\
     25376f1cc40631485b90bf93ec1b857a30c2beebe6509c61ccffeac5f82fa619b048719cb08452b5df59036432b9782dd881453d5536242dd977e0\
     1d9b05934da403184703cbb15e2f92387f1b38ca0fce62c7bd59f1dc60afe681196252816500929d1213f7ee5f0b03de8af41a531b45ee010f4856\
     132c93cf5bcb98e41207ac4b3628efb00f4394eb3525b31146319832accc6f6abe280bc187181fb5f5c7fea3d1d3c7b87b3101a9c0c4c15194c99b\
     e5650987012509c7aab85c\n\
     continue 6082017006092a864886f71201020201006e82015f3082015ba003020105a10302010ea20703050000000000a37461723070a00302010\
     5a10d1b0b4558414d504c452e434f4da211300fa003020102a10830061b01681b0173a3473045a003020112a23e043c3c434a51585f666d747b828\
     990979ea5acb3bac1c8cfd6dde4ebf2f900070e151c232a31383f464d545b626970777e858c939aa1a8afb6bdc4cbd2d9a481cf3081cca00302011\
     2a281c40481c13bd422bf2066631a4cc51b56ac3d9376a958791b2b4737d566fa422055f14c9497112400a9ad56428f87ed4292193883aa0911a24\
     1383314e358c4acda57ad386b663cf0f7ff94053d42db0b7559c7949c6af12f3de0d9bd114581933c0831fadf40896ddbbc7f9301fec673f94e962\
     1705b4c703f1e2053286aa64819dbcca060c999abdfd5d0dcfc2f16d1a86e88a3c488da8e68539eb6e2848a8df1758eed7943fb33b855ebe56d5b4\
     c72c5459cd3c788816062b30367c311bc45e41db6bbb4\n\
     context ApExchange 9 EXAMPLE.COM - 0\n\
     key 202122232425262728292a2b2c2d2e2f303132333435363738393a3b3c3d3e3f";

const HTTP: &str = "\
     initiator 9 pc h/s\n\
     kdc http://p.example:80/k?a=b\n\
     keytab EXAMPLE.COM\\alice 18 72e14c8e96dfba330802c689e06448591bc19da4f18500d9d63671d6ce24d52d\n\
     call - -\n\
     ask http http://p.example/k?a=b PC_ASKS_OVER_HTTP\n\
     fault 0\n\
     refused NoAuthenticatingAuthority Network 0";

const FTP: &str = "\
     initiator 9 pc h/s\n\
     kdc ftp://kdc.example\n\
     keytab EXAMPLE.COM\\alice 18 72e14c8e96dfba330802c689e06448591bc19da4f18500d9d63671d6ce24d52d\n\
     call - -\n\
     refused InvalidParameter Scheme";

const NO_URL: &str = "\
     initiator 9 pc h/s\n\
     keytab EXAMPLE.COM\\alice 18 72e14c8e96dfba330802c689e06448591bc19da4f18500d9d63671d6ce24d52d\n\
     call - -\n\
     refused NoAuthenticatingAuthority NoKdc";

const NO_SCHEME: &str = "\
     initiator 9 pc h/s\n\
     kdc kdc.example:88\n\
     keytab EXAMPLE.COM\\alice 18 72e14c8e96dfba330802c689e06448591bc19da4f18500d9d63671d6ce24d52d\n\
     call - -\n\
     ask tcp tcp://kdc.example:88 PC_ASKS\n\
     fault 0\n\
     refused NoAuthenticatingAuthority Network 0";

const HTTP_IN_CAPITALS: &str = "\
     initiator 9 pc h/s\n\
     kdc HTTP://p.example\n\
     keytab EXAMPLE.COM\\alice 18 72e14c8e96dfba330802c689e06448591bc19da4f18500d9d63671d6ce24d52d\n\
     call - -\n\
     ask http http://p.example/ PC_ASKS_OVER_HTTP\n\
     fault 0\n\
     refused NoAuthenticatingAuthority Network 0";

const HOST_IN_CAPITALS: &str = "\
     initiator 9 pc h/s\n\
     kdc tcp://KDC.Example/\n\
     keytab EXAMPLE.COM\\alice 18 72e14c8e96dfba330802c689e06448591bc19da4f18500d9d63671d6ce24d52d\n\
     call - -\n\
     ask tcp tcp://KDC.Example/ PC_ASKS\n\
     fault 0\n\
     refused NoAuthenticatingAuthority Network 0";

const ADDRESS_OF_IPV6: &str = "\
     initiator 9 pc h/s\n\
     kdc tcp://[::1]:88\n\
     keytab EXAMPLE.COM\\alice 18 72e14c8e96dfba330802c689e06448591bc19da4f18500d9d63671d6ce24d52d\n\
     call - -\n\
     ask tcp tcp://[::1]:88 PC_ASKS\n\
     fault 0\n\
     refused NoAuthenticatingAuthority Network 0";

const SHORT_ADDRESS_OF_IPV4: &str = "\
     initiator 9 pc h/s\n\
     kdc https://127.1:443\n\
     keytab EXAMPLE.COM\\alice 18 72e14c8e96dfba330802c689e06448591bc19da4f18500d9d63671d6ce24d52d\n\
     call - -\n\
     ask https https://127.0.0.1/ PC_ASKS_OVER_HTTP\n\
     fault 0\n\
     refused NoAuthenticatingAuthority Network 0";

const ALL_PARTS_OF_A_URL: &str = "\
     initiator 9 pc h/s\n\
     kdc tcp://u:p@h:1/x%20y?z#f\n\
     keytab EXAMPLE.COM\\alice 18 72e14c8e96dfba330802c689e06448591bc19da4f18500d9d63671d6ce24d52d\n\
     call - -\n\
     ask tcp tcp://u:p@h:1/x%20y?z#f PC_ASKS\n\
     fault 0\n\
     refused NoAuthenticatingAuthority Network 0";

pub static SESSIONS: [&str; 12] = [
    TCP,
    UDP,
    HTTPS,
    HTTP,
    FTP,
    NO_URL,
    NO_SCHEME,
    HTTP_IN_CAPITALS,
    HOST_IN_CAPITALS,
    ADDRESS_OF_IPV6,
    SHORT_ADDRESS_OF_IPV4,
    ALL_PARTS_OF_A_URL,
];
