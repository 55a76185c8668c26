// The names that the benchmark's inputs are drawn from, in composed spelling (inputs.c makes the others), none over NAME_MOST
// octets. A row holds names of one kind.
#ifndef BENCH_NAME_LISTS_H
#define BENCH_NAME_LISTS_H

#define NAMES_IN_ROW 12
typedef const char *const name_row[NAMES_IN_ROW];

// Storm names and others of languages in Latin letters.
static name_row latin_names[] = {
    {"José", "Noël", "Iñigo", "René", "Björn", "Zoë", "Łukasz", "Đorđe", "Åsa", "Søren", "François", "Nguyễn"},
    {"Beryl", "Otto", "Ophelia", "Helene", "Fernand", "Gabrielle", "Humberto", "Imelda", "Jerry", "Karen", "Lorenzo", "Melissa"},
    {"Andrés", "Inés", "Agnès", "Héloïse", "Benoît", "Maëlle", "Jérôme", "Désirée", "Anaïs", "Loïc", "Gaëlle", "Chloé"},
    {"Jürgen", "Günther", "Jörg", "Käthe", "Strauß", "Ásgeir", "Þórunn", "Guðrún", "Häkkinen", "Øyvind", "Måns", "Märta"},
    {"Zbyněk", "Jiří", "Čeněk", "Růžena", "Ľubica", "Ďurica", "Želmíra", "Šárka", "Małgorzata", "Wałęsa", "Mieczysław", "Żaneta"},
    {"Çağla", "Gökçe", "Işık", "Şükrü", "Ömer", "Ionuț", "Ștefan", "Ţepeş", "Răzvan", "Mihăiță", "Tünde", "Győző"},
    {"Phạm", "Trần", "Hoàng", "Đặng", "Bùi", "Lý", "Phượng", "Thủy", "Hiếu", "Bảo", "Quốc", "Dũng"},
    {"João", "Conceição", "Estêvão", "Antônio", "Inácio", "Muñoz", "Peñalver", "Núñez", "Ibáñez", "Güemes", "Nicolò", "Renée"},
    {"Smith", "Walker", "O'Brien", "Taylor", "Ellis", "Murphy", "Okafor", "van Dijk", "Schneider", "Kowalski", "Nilsson", "Rossi"},
    {"Ģirts", "Šķēle", "Ādažs", "Žydrūnas", "Rūta", "Eglė", "Jõgeva", "Mürsepp", "Ngũgĩ", "Ọlá", "Kāwika", "Ḥasan"},
};

// Names in several scripts; some in characters that are kept for older character sets, and a few in Hangul, short enough to fit
// in jamo too.
static name_row mixed_names[] = {
    {"José", "Noël", "Iñigo", "Beryl", "Ophelia", "Łukasz", "Søren", "Nguyễn", "Smith", "Jürgen", "Šárka", "Ștefan"},
    {"Γιώργος", "Ελένη", "Μαρία", "Νίκος", "Ἀχιλλεύς", "Ὀδυσσεύς", "Σωκράτης", "Ἥρα", "Ἑλένη", "Ιωάννα", "Ζεύς", "Ὅμηρος"},
    {"Сергій", "Мария", "Йосип", "Їжакевич", "Андрей", "Ёлкин", "Георгиев", "Ђорђе", "Љубица", "Зоя", "Юрій", "Майкл"},
    {"محمد", "أحمد", "آمنة", "مؤمن", "إبراهيم", "فاطمة", "ليلى", "رؤوف", "عائشة", "ﻣﺤﻤﺪ", "ﺃﺣﻤﺪ", "ﻼﻝﺍ"},
    {"राम", "सीता", "अर्जुन", "कृष्ण", "लता", "क़ासिम", "ज़फ़र", "गणेश", "प्रिया", "मीरा", "ऋषि", "दुर्गा"},
    {"王小明", "李娜", "陳大文", "山田太郎", "鈴木", "金田", "﨑山", "六角", "張偉", "민준", "서연", "지훈"},
    {"ﾀﾅｶ", "ｽｽﾞｷ", "ｶﾞｰﾈﾙ", "ﾋﾟｱﾉ", "ﾔﾏﾀﾞ", "ﾌｼﾞｺ", "ｻｸﾗ", "ｼﾞﾛｳ", "ﾅｶﾑﾗ", "ﾊﾙｺ", "ﾕｷ", "ﾎﾉｶ"},
    {"タナカ", "スズキ", "ガーネル", "ピアノ", "やまだ", "ふじこ", "さくら", "ジロウ", "ナカムラ", "はるこ", "ゆき", "ヴィオラ"},
    {"ＪＯＳＥ", "Ｎｏｅｌ", "ｓｍｉｔｈ", "ﬁona", "Goﬀrey", "Graﬄe", "ﬂorence", "Auguﬆe", "Ǆordan", "ǆemal", "Ĳsbrand", "Ŀluc Ⅳ"},
};

#endif
