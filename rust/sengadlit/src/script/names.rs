//! A constant for each of Unicode's scripts.
//! Written by unicode/generate.
#![allow(clippy::doc_markdown, reason = "names of scripts")]

use crate::buffer::Script;

/// Adlam.
pub const ADLAM: Script = Script(*b"Adlm");
/// Ahom.
pub const AHOM: Script = Script(*b"Ahom");
/// Anatolian Hieroglyphs.
pub const ANATOLIAN_HIEROGLYPHS: Script = Script(*b"Hluw");
/// Arabic.
pub const ARABIC: Script = Script(*b"Arab");
/// Armenian.
pub const ARMENIAN: Script = Script(*b"Armn");
/// Avestan.
pub const AVESTAN: Script = Script(*b"Avst");
/// Balinese.
pub const BALINESE: Script = Script(*b"Bali");
/// Bamum.
pub const BAMUM: Script = Script(*b"Bamu");
/// Bassa Vah.
pub const BASSA_VAH: Script = Script(*b"Bass");
/// Batak.
pub const BATAK: Script = Script(*b"Batk");
/// Bengali.
pub const BENGALI: Script = Script(*b"Beng");
/// Beria Erfe.
pub const BERIA_ERFE: Script = Script(*b"Berf");
/// Bhaiksuki.
pub const BHAIKSUKI: Script = Script(*b"Bhks");
/// Bopomofo.
pub const BOPOMOFO: Script = Script(*b"Bopo");
/// Brahmi.
pub const BRAHMI: Script = Script(*b"Brah");
/// Braille.
pub const BRAILLE: Script = Script(*b"Brai");
/// Buginese.
pub const BUGINESE: Script = Script(*b"Bugi");
/// Buhid.
pub const BUHID: Script = Script(*b"Buhd");
/// Canadian Aboriginal.
pub const CANADIAN_ABORIGINAL: Script = Script(*b"Cans");
/// Carian.
pub const CARIAN: Script = Script(*b"Cari");
/// Caucasian Albanian.
pub const CAUCASIAN_ALBANIAN: Script = Script(*b"Aghb");
/// Chakma.
pub const CHAKMA: Script = Script(*b"Cakm");
/// Cham.
pub const CHAM: Script = Script(*b"Cham");
/// Cherokee.
pub const CHEROKEE: Script = Script(*b"Cher");
/// Chorasmian.
pub const CHORASMIAN: Script = Script(*b"Chrs");
/// Coptic.
pub const COPTIC: Script = Script(*b"Copt");
/// Cuneiform.
pub const CUNEIFORM: Script = Script(*b"Xsux");
/// Cypriot.
pub const CYPRIOT: Script = Script(*b"Cprt");
/// Cypro Minoan.
pub const CYPRO_MINOAN: Script = Script(*b"Cpmn");
/// Cyrillic.
pub const CYRILLIC: Script = Script(*b"Cyrl");
/// Deseret.
pub const DESERET: Script = Script(*b"Dsrt");
/// Devanagari.
pub const DEVANAGARI: Script = Script(*b"Deva");
/// Dives Akuru.
pub const DIVES_AKURU: Script = Script(*b"Diak");
/// Dogra.
pub const DOGRA: Script = Script(*b"Dogr");
/// Duployan.
pub const DUPLOYAN: Script = Script(*b"Dupl");
/// Egyptian Hieroglyphs.
pub const EGYPTIAN_HIEROGLYPHS: Script = Script(*b"Egyp");
/// Elbasan.
pub const ELBASAN: Script = Script(*b"Elba");
/// Elymaic.
pub const ELYMAIC: Script = Script(*b"Elym");
/// Ethiopic.
pub const ETHIOPIC: Script = Script(*b"Ethi");
/// Garay.
pub const GARAY: Script = Script(*b"Gara");
/// Georgian.
pub const GEORGIAN: Script = Script(*b"Geor");
/// Glagolitic.
pub const GLAGOLITIC: Script = Script(*b"Glag");
/// Gothic.
pub const GOTHIC: Script = Script(*b"Goth");
/// Grantha.
pub const GRANTHA: Script = Script(*b"Gran");
/// Greek.
pub const GREEK: Script = Script(*b"Grek");
/// Gujarati.
pub const GUJARATI: Script = Script(*b"Gujr");
/// Gunjala Gondi.
pub const GUNJALA_GONDI: Script = Script(*b"Gong");
/// Gurmukhi.
pub const GURMUKHI: Script = Script(*b"Guru");
/// Gurung Khema.
pub const GURUNG_KHEMA: Script = Script(*b"Gukh");
/// Han.
pub const HAN: Script = Script(*b"Hani");
/// Hangul.
pub const HANGUL: Script = Script(*b"Hang");
/// Hanifi Rohingya.
pub const HANIFI_ROHINGYA: Script = Script(*b"Rohg");
/// Hanunoo.
pub const HANUNOO: Script = Script(*b"Hano");
/// Hatran.
pub const HATRAN: Script = Script(*b"Hatr");
/// Hebrew.
pub const HEBREW: Script = Script(*b"Hebr");
/// Hiragana.
pub const HIRAGANA: Script = Script(*b"Hira");
/// Imperial Aramaic.
pub const IMPERIAL_ARAMAIC: Script = Script(*b"Armi");
/// Inscriptional Pahlavi.
pub const INSCRIPTIONAL_PAHLAVI: Script = Script(*b"Phli");
/// Inscriptional Parthian.
pub const INSCRIPTIONAL_PARTHIAN: Script = Script(*b"Prti");
/// Javanese.
pub const JAVANESE: Script = Script(*b"Java");
/// Kaithi.
pub const KAITHI: Script = Script(*b"Kthi");
/// Kannada.
pub const KANNADA: Script = Script(*b"Knda");
/// Katakana.
pub const KATAKANA: Script = Script(*b"Kana");
/// Kawi.
pub const KAWI: Script = Script(*b"Kawi");
/// Kayah Li.
pub const KAYAH_LI: Script = Script(*b"Kali");
/// Kharoshthi.
pub const KHAROSHTHI: Script = Script(*b"Khar");
/// Khitan Small Script.
pub const KHITAN_SMALL_SCRIPT: Script = Script(*b"Kits");
/// Khmer.
pub const KHMER: Script = Script(*b"Khmr");
/// Khojki.
pub const KHOJKI: Script = Script(*b"Khoj");
/// Khudawadi.
pub const KHUDAWADI: Script = Script(*b"Sind");
/// Kirat Rai.
pub const KIRAT_RAI: Script = Script(*b"Krai");
/// Lao.
pub const LAO: Script = Script(*b"Laoo");
/// Latin.
pub const LATIN: Script = Script(*b"Latn");
/// Lepcha.
pub const LEPCHA: Script = Script(*b"Lepc");
/// Limbu.
pub const LIMBU: Script = Script(*b"Limb");
/// Linear A.
pub const LINEAR_A: Script = Script(*b"Lina");
/// Linear B.
pub const LINEAR_B: Script = Script(*b"Linb");
/// Lisu.
pub const LISU: Script = Script(*b"Lisu");
/// Lycian.
pub const LYCIAN: Script = Script(*b"Lyci");
/// Lydian.
pub const LYDIAN: Script = Script(*b"Lydi");
/// Mahajani.
pub const MAHAJANI: Script = Script(*b"Mahj");
/// Makasar.
pub const MAKASAR: Script = Script(*b"Maka");
/// Malayalam.
pub const MALAYALAM: Script = Script(*b"Mlym");
/// Mandaic.
pub const MANDAIC: Script = Script(*b"Mand");
/// Manichaean.
pub const MANICHAEAN: Script = Script(*b"Mani");
/// Marchen.
pub const MARCHEN: Script = Script(*b"Marc");
/// Masaram Gondi.
pub const MASARAM_GONDI: Script = Script(*b"Gonm");
/// Medefaidrin.
pub const MEDEFAIDRIN: Script = Script(*b"Medf");
/// Meetei Mayek.
pub const MEETEI_MAYEK: Script = Script(*b"Mtei");
/// Mende Kikakui.
pub const MENDE_KIKAKUI: Script = Script(*b"Mend");
/// Meroitic Cursive.
pub const MEROITIC_CURSIVE: Script = Script(*b"Merc");
/// Meroitic Hieroglyphs.
pub const MEROITIC_HIEROGLYPHS: Script = Script(*b"Mero");
/// Miao.
pub const MIAO: Script = Script(*b"Plrd");
/// Modi.
pub const MODI: Script = Script(*b"Modi");
/// Mongolian.
pub const MONGOLIAN: Script = Script(*b"Mong");
/// Mro.
pub const MRO: Script = Script(*b"Mroo");
/// Multani.
pub const MULTANI: Script = Script(*b"Mult");
/// Myanmar.
pub const MYANMAR: Script = Script(*b"Mymr");
/// Nabataean.
pub const NABATAEAN: Script = Script(*b"Nbat");
/// Nag Mundari.
pub const NAG_MUNDARI: Script = Script(*b"Nagm");
/// Nandinagari.
pub const NANDINAGARI: Script = Script(*b"Nand");
/// New Tai Lue.
pub const NEW_TAI_LUE: Script = Script(*b"Talu");
/// Newa.
pub const NEWA: Script = Script(*b"Newa");
/// Nko.
pub const NKO: Script = Script(*b"Nkoo");
/// Nushu.
pub const NUSHU: Script = Script(*b"Nshu");
/// Nyiakeng Puachue Hmong.
pub const NYIAKENG_PUACHUE_HMONG: Script = Script(*b"Hmnp");
/// Ogham.
pub const OGHAM: Script = Script(*b"Ogam");
/// Ol Chiki.
pub const OL_CHIKI: Script = Script(*b"Olck");
/// Ol Onal.
pub const OL_ONAL: Script = Script(*b"Onao");
/// Old Hungarian.
pub const OLD_HUNGARIAN: Script = Script(*b"Hung");
/// Old Italic.
pub const OLD_ITALIC: Script = Script(*b"Ital");
/// Old North Arabian.
pub const OLD_NORTH_ARABIAN: Script = Script(*b"Narb");
/// Old Permic.
pub const OLD_PERMIC: Script = Script(*b"Perm");
/// Old Persian.
pub const OLD_PERSIAN: Script = Script(*b"Xpeo");
/// Old Sogdian.
pub const OLD_SOGDIAN: Script = Script(*b"Sogo");
/// Old South Arabian.
pub const OLD_SOUTH_ARABIAN: Script = Script(*b"Sarb");
/// Old Turkic.
pub const OLD_TURKIC: Script = Script(*b"Orkh");
/// Old Uyghur.
pub const OLD_UYGHUR: Script = Script(*b"Ougr");
/// Oriya.
pub const ORIYA: Script = Script(*b"Orya");
/// Osage.
pub const OSAGE: Script = Script(*b"Osge");
/// Osmanya.
pub const OSMANYA: Script = Script(*b"Osma");
/// Pahawh Hmong.
pub const PAHAWH_HMONG: Script = Script(*b"Hmng");
/// Palmyrene.
pub const PALMYRENE: Script = Script(*b"Palm");
/// Pau Cin Hau.
pub const PAU_CIN_HAU: Script = Script(*b"Pauc");
/// Phags Pa.
pub const PHAGS_PA: Script = Script(*b"Phag");
/// Phoenician.
pub const PHOENICIAN: Script = Script(*b"Phnx");
/// Psalter Pahlavi.
pub const PSALTER_PAHLAVI: Script = Script(*b"Phlp");
/// Rejang.
pub const REJANG: Script = Script(*b"Rjng");
/// Runic.
pub const RUNIC: Script = Script(*b"Runr");
/// Samaritan.
pub const SAMARITAN: Script = Script(*b"Samr");
/// Saurashtra.
pub const SAURASHTRA: Script = Script(*b"Saur");
/// Sharada.
pub const SHARADA: Script = Script(*b"Shrd");
/// Shavian.
pub const SHAVIAN: Script = Script(*b"Shaw");
/// Siddham.
pub const SIDDHAM: Script = Script(*b"Sidd");
/// Sidetic.
pub const SIDETIC: Script = Script(*b"Sidt");
/// SignWriting.
pub const SIGNWRITING: Script = Script(*b"Sgnw");
/// Sinhala.
pub const SINHALA: Script = Script(*b"Sinh");
/// Sogdian.
pub const SOGDIAN: Script = Script(*b"Sogd");
/// Sora Sompeng.
pub const SORA_SOMPENG: Script = Script(*b"Sora");
/// Soyombo.
pub const SOYOMBO: Script = Script(*b"Soyo");
/// Sundanese.
pub const SUNDANESE: Script = Script(*b"Sund");
/// Sunuwar.
pub const SUNUWAR: Script = Script(*b"Sunu");
/// Syloti Nagri.
pub const SYLOTI_NAGRI: Script = Script(*b"Sylo");
/// Syriac.
pub const SYRIAC: Script = Script(*b"Syrc");
/// Tagalog.
pub const TAGALOG: Script = Script(*b"Tglg");
/// Tagbanwa.
pub const TAGBANWA: Script = Script(*b"Tagb");
/// Tai Le.
pub const TAI_LE: Script = Script(*b"Tale");
/// Tai Tham.
pub const TAI_THAM: Script = Script(*b"Lana");
/// Tai Viet.
pub const TAI_VIET: Script = Script(*b"Tavt");
/// Tai Yo.
pub const TAI_YO: Script = Script(*b"Tayo");
/// Takri.
pub const TAKRI: Script = Script(*b"Takr");
/// Tamil.
pub const TAMIL: Script = Script(*b"Taml");
/// Tangsa.
pub const TANGSA: Script = Script(*b"Tnsa");
/// Tangut.
pub const TANGUT: Script = Script(*b"Tang");
/// Telugu.
pub const TELUGU: Script = Script(*b"Telu");
/// Thaana.
pub const THAANA: Script = Script(*b"Thaa");
/// Thai.
pub const THAI: Script = Script(*b"Thai");
/// Tibetan.
pub const TIBETAN: Script = Script(*b"Tibt");
/// Tifinagh.
pub const TIFINAGH: Script = Script(*b"Tfng");
/// Tirhuta.
pub const TIRHUTA: Script = Script(*b"Tirh");
/// Todhri.
pub const TODHRI: Script = Script(*b"Todr");
/// Tolong Siki.
pub const TOLONG_SIKI: Script = Script(*b"Tols");
/// Toto.
pub const TOTO: Script = Script(*b"Toto");
/// Tulu Tigalari.
pub const TULU_TIGALARI: Script = Script(*b"Tutg");
/// Ugaritic.
pub const UGARITIC: Script = Script(*b"Ugar");
/// Vai.
pub const VAI: Script = Script(*b"Vaii");
/// Vithkuqi.
pub const VITHKUQI: Script = Script(*b"Vith");
/// Wancho.
pub const WANCHO: Script = Script(*b"Wcho");
/// Warang Citi.
pub const WARANG_CITI: Script = Script(*b"Wara");
/// Yezidi.
pub const YEZIDI: Script = Script(*b"Yezi");
/// Yi.
pub const YI: Script = Script(*b"Yiii");
/// Zanabazar Square.
pub const ZANABAZAR_SQUARE: Script = Script(*b"Zanb");

/// Unicode's scripts, in the order of their names, which have `_` for a space.
pub const ALL: [(&str, Script); 172] = [
    ("Adlam", ADLAM),
    ("Ahom", AHOM),
    ("Anatolian_Hieroglyphs", ANATOLIAN_HIEROGLYPHS),
    ("Arabic", ARABIC),
    ("Armenian", ARMENIAN),
    ("Avestan", AVESTAN),
    ("Balinese", BALINESE),
    ("Bamum", BAMUM),
    ("Bassa_Vah", BASSA_VAH),
    ("Batak", BATAK),
    ("Bengali", BENGALI),
    ("Beria_Erfe", BERIA_ERFE),
    ("Bhaiksuki", BHAIKSUKI),
    ("Bopomofo", BOPOMOFO),
    ("Brahmi", BRAHMI),
    ("Braille", BRAILLE),
    ("Buginese", BUGINESE),
    ("Buhid", BUHID),
    ("Canadian_Aboriginal", CANADIAN_ABORIGINAL),
    ("Carian", CARIAN),
    ("Caucasian_Albanian", CAUCASIAN_ALBANIAN),
    ("Chakma", CHAKMA),
    ("Cham", CHAM),
    ("Cherokee", CHEROKEE),
    ("Chorasmian", CHORASMIAN),
    ("Coptic", COPTIC),
    ("Cuneiform", CUNEIFORM),
    ("Cypriot", CYPRIOT),
    ("Cypro_Minoan", CYPRO_MINOAN),
    ("Cyrillic", CYRILLIC),
    ("Deseret", DESERET),
    ("Devanagari", DEVANAGARI),
    ("Dives_Akuru", DIVES_AKURU),
    ("Dogra", DOGRA),
    ("Duployan", DUPLOYAN),
    ("Egyptian_Hieroglyphs", EGYPTIAN_HIEROGLYPHS),
    ("Elbasan", ELBASAN),
    ("Elymaic", ELYMAIC),
    ("Ethiopic", ETHIOPIC),
    ("Garay", GARAY),
    ("Georgian", GEORGIAN),
    ("Glagolitic", GLAGOLITIC),
    ("Gothic", GOTHIC),
    ("Grantha", GRANTHA),
    ("Greek", GREEK),
    ("Gujarati", GUJARATI),
    ("Gunjala_Gondi", GUNJALA_GONDI),
    ("Gurmukhi", GURMUKHI),
    ("Gurung_Khema", GURUNG_KHEMA),
    ("Han", HAN),
    ("Hangul", HANGUL),
    ("Hanifi_Rohingya", HANIFI_ROHINGYA),
    ("Hanunoo", HANUNOO),
    ("Hatran", HATRAN),
    ("Hebrew", HEBREW),
    ("Hiragana", HIRAGANA),
    ("Imperial_Aramaic", IMPERIAL_ARAMAIC),
    ("Inscriptional_Pahlavi", INSCRIPTIONAL_PAHLAVI),
    ("Inscriptional_Parthian", INSCRIPTIONAL_PARTHIAN),
    ("Javanese", JAVANESE),
    ("Kaithi", KAITHI),
    ("Kannada", KANNADA),
    ("Katakana", KATAKANA),
    ("Kawi", KAWI),
    ("Kayah_Li", KAYAH_LI),
    ("Kharoshthi", KHAROSHTHI),
    ("Khitan_Small_Script", KHITAN_SMALL_SCRIPT),
    ("Khmer", KHMER),
    ("Khojki", KHOJKI),
    ("Khudawadi", KHUDAWADI),
    ("Kirat_Rai", KIRAT_RAI),
    ("Lao", LAO),
    ("Latin", LATIN),
    ("Lepcha", LEPCHA),
    ("Limbu", LIMBU),
    ("Linear_A", LINEAR_A),
    ("Linear_B", LINEAR_B),
    ("Lisu", LISU),
    ("Lycian", LYCIAN),
    ("Lydian", LYDIAN),
    ("Mahajani", MAHAJANI),
    ("Makasar", MAKASAR),
    ("Malayalam", MALAYALAM),
    ("Mandaic", MANDAIC),
    ("Manichaean", MANICHAEAN),
    ("Marchen", MARCHEN),
    ("Masaram_Gondi", MASARAM_GONDI),
    ("Medefaidrin", MEDEFAIDRIN),
    ("Meetei_Mayek", MEETEI_MAYEK),
    ("Mende_Kikakui", MENDE_KIKAKUI),
    ("Meroitic_Cursive", MEROITIC_CURSIVE),
    ("Meroitic_Hieroglyphs", MEROITIC_HIEROGLYPHS),
    ("Miao", MIAO),
    ("Modi", MODI),
    ("Mongolian", MONGOLIAN),
    ("Mro", MRO),
    ("Multani", MULTANI),
    ("Myanmar", MYANMAR),
    ("Nabataean", NABATAEAN),
    ("Nag_Mundari", NAG_MUNDARI),
    ("Nandinagari", NANDINAGARI),
    ("New_Tai_Lue", NEW_TAI_LUE),
    ("Newa", NEWA),
    ("Nko", NKO),
    ("Nushu", NUSHU),
    ("Nyiakeng_Puachue_Hmong", NYIAKENG_PUACHUE_HMONG),
    ("Ogham", OGHAM),
    ("Ol_Chiki", OL_CHIKI),
    ("Ol_Onal", OL_ONAL),
    ("Old_Hungarian", OLD_HUNGARIAN),
    ("Old_Italic", OLD_ITALIC),
    ("Old_North_Arabian", OLD_NORTH_ARABIAN),
    ("Old_Permic", OLD_PERMIC),
    ("Old_Persian", OLD_PERSIAN),
    ("Old_Sogdian", OLD_SOGDIAN),
    ("Old_South_Arabian", OLD_SOUTH_ARABIAN),
    ("Old_Turkic", OLD_TURKIC),
    ("Old_Uyghur", OLD_UYGHUR),
    ("Oriya", ORIYA),
    ("Osage", OSAGE),
    ("Osmanya", OSMANYA),
    ("Pahawh_Hmong", PAHAWH_HMONG),
    ("Palmyrene", PALMYRENE),
    ("Pau_Cin_Hau", PAU_CIN_HAU),
    ("Phags_Pa", PHAGS_PA),
    ("Phoenician", PHOENICIAN),
    ("Psalter_Pahlavi", PSALTER_PAHLAVI),
    ("Rejang", REJANG),
    ("Runic", RUNIC),
    ("Samaritan", SAMARITAN),
    ("Saurashtra", SAURASHTRA),
    ("Sharada", SHARADA),
    ("Shavian", SHAVIAN),
    ("Siddham", SIDDHAM),
    ("Sidetic", SIDETIC),
    ("SignWriting", SIGNWRITING),
    ("Sinhala", SINHALA),
    ("Sogdian", SOGDIAN),
    ("Sora_Sompeng", SORA_SOMPENG),
    ("Soyombo", SOYOMBO),
    ("Sundanese", SUNDANESE),
    ("Sunuwar", SUNUWAR),
    ("Syloti_Nagri", SYLOTI_NAGRI),
    ("Syriac", SYRIAC),
    ("Tagalog", TAGALOG),
    ("Tagbanwa", TAGBANWA),
    ("Tai_Le", TAI_LE),
    ("Tai_Tham", TAI_THAM),
    ("Tai_Viet", TAI_VIET),
    ("Tai_Yo", TAI_YO),
    ("Takri", TAKRI),
    ("Tamil", TAMIL),
    ("Tangsa", TANGSA),
    ("Tangut", TANGUT),
    ("Telugu", TELUGU),
    ("Thaana", THAANA),
    ("Thai", THAI),
    ("Tibetan", TIBETAN),
    ("Tifinagh", TIFINAGH),
    ("Tirhuta", TIRHUTA),
    ("Todhri", TODHRI),
    ("Tolong_Siki", TOLONG_SIKI),
    ("Toto", TOTO),
    ("Tulu_Tigalari", TULU_TIGALARI),
    ("Ugaritic", UGARITIC),
    ("Vai", VAI),
    ("Vithkuqi", VITHKUQI),
    ("Wancho", WANCHO),
    ("Warang_Citi", WARANG_CITI),
    ("Yezidi", YEZIDI),
    ("Yi", YI),
    ("Zanabazar_Square", ZANABAZAR_SQUARE),
];
