/* sengadlit.h - text shaping: a font file and a text to positioned glyphs in one call, and script shapers for engines with
   lookups of their own, the hooks between Unicode text and a font's lookups.

   For Arabic and the scripts that join like it, Hangul, Hebrew, the Indic scripts, Khmer, Myanmar, Thai and Lao, and the
   scripts of the Universal Shaping Engine. They are HarfBuzz's hooks under HarfBuzz's names, with its numbers for scripts,
   directions, cluster levels, flags and categories. Lookups are a face's, or the caller's, and so is the font, which the
   library calls back then. Unicode's tables, the syllables of a text, its normalization and what stands around lookups may be
   the library's or the caller's.

   Objects. A face is a font in memory, and a plan is made once for a shaper, a script and a font; neither changes afterwards,
   and threads may share them. A buffer is used by one thread at a time, again and again; its glyphs are read and written in
   place.

   Structs that may get fields in a later version begin with their own size: SENGADLIT_INIT(type) makes one of which the size is
   set and all else 0. One of a later header is taken if the fields that this library doesn't know are 0. A size that is 0, or
   none of the struct's, is rejected as a null pointer would be.

   Pointers. What is passed in stays the caller's and is read during the call alone, but for the user data of a plan or a face,
   and a face's bytes. No pointer may be null unless its description says so. A null pointer elsewhere is rejected like any
   other argument.

   Errors. A call tests its arguments before it writes anything. Where it doesn't return SENGADLIT_DONE, and where a function
   that returns a pointer returns null, nothing has changed but what sengadlit_error_t reports; the one exception is
   SENGADLIT_INTERNAL. Memory comes from malloc.

   Callbacks run on the thread of the call, before it returns. They return the same result for the same arguments throughout a
   call; if one doesn't, the result is unspecified or SENGADLIT_INTERNAL, and memory stays sound all the same. A callback may
   use other buffers and plans. The buffer of its call is rejected by every function: those that return a status return
   SENGADLIT_IN_CALL, those that return a pointer null, and the others do nothing, except that sengadlit_buffer_destroy takes
   effect when the call ends, and sengadlit_buffer_get_error works. A callback must not touch the glyphs or positions of that
   buffer by pointers from before, nor drop the last reference to the plan or the face of the call. A C++ exception that leaves
   a callback ends the program, with a message on stderr. A callback must not be left by longjmp: the jump would pass over
   frames of the library, which free what they own when they return, and its behaviour is undefined. */
#ifndef SENGADLIT_H
#define SENGADLIT_H

#include <stddef.h>
#include <stdint.h>

/* What initializes a struct that begins with its size: sengadlit_plan_input_t input = SENGADLIT_INIT(sengadlit_plan_input_t); */
#ifdef __cplusplus
template <typename type> inline type sengadlit_init()
{
    type zeros{};
    zeros.size = sizeof zeros;
    return zeros;
}
#define SENGADLIT_INIT(type) sengadlit_init<type>()
#else
#define SENGADLIT_INIT(type) {.size = sizeof(type)}
#endif

#ifdef __cplusplus
extern "C" {
#endif

/* ---- Common types ---- */

typedef int sengadlit_bool_t; /* As hb_bool_t: 0 is false, anything else is true; the library writes 0 or 1. */
typedef uint32_t sengadlit_tag_t; /* As hb_tag_t and hb_script_t: four bytes, the first one highest; 0 is none. */

#define SENGADLIT_TAG(a, b, c, d) \
    ((sengadlit_tag_t)(uint8_t)(a) << 24 | (sengadlit_tag_t)(uint8_t)(b) << 16 | (sengadlit_tag_t)(uint8_t)(c) << 8 | \
     (sengadlit_tag_t)(uint8_t)(d))

/* As hb_direction_t. */
typedef enum sengadlit_direction_t {
    SENGADLIT_DIRECTION_INVALID = 0,
    SENGADLIT_DIRECTION_LTR = 4,
    SENGADLIT_DIRECTION_RTL = 5,
    SENGADLIT_DIRECTION_TTB = 6,
    SENGADLIT_DIRECTION_BTT = 7,
    SENGADLIT_DIRECTION_MAX_VALUE = 0x7FFFFFFF
} sengadlit_direction_t;

/* Frees what user data points to. */
typedef void (*sengadlit_destroy_func_t)(void *user_data);

/* ---- Version ---- */

#define SENGADLIT_VERSION_MAJOR 0
#define SENGADLIT_VERSION_MINOR 2
#define SENGADLIT_VERSION_MICRO 0
#define SENGADLIT_VERSION_STRING "0.2.0"

/* Whether this header is of the given version or a later one. */
#define SENGADLIT_VERSION_ATLEAST(major, minor, micro) \
    ((major) * 10000 + (minor) * 100 + (micro) <= \
     SENGADLIT_VERSION_MAJOR * 10000 + SENGADLIT_VERSION_MINOR * 100 + SENGADLIT_VERSION_MICRO)

/* Whether the library that runs is of the given version or a later one. */
sengadlit_bool_t sengadlit_version_atleast(unsigned int major, unsigned int minor, unsigned int micro);
/* The version of the library that runs, which may be later than the header's. Each pointer may be null. */
void sengadlit_version(unsigned int *major, unsigned int *minor, unsigned int *micro);
/* The same as text, "0.2.0". The text is the library's and stays. */
const char *sengadlit_version_string(void);

/* ---- Errors ---- */

/* How a call ended. */
typedef enum sengadlit_status_t {
    SENGADLIT_DONE = 0,
    SENGADLIT_ABSENT = 1,            /* The shaper has no such hook: do what is done for scripts without a shaper. */
    SENGADLIT_ARGUMENT = 2,          /* The call doesn't accept an argument; sengadlit_error_t says which. */
    SENGADLIT_MEMORY = 3,            /* Memory was refused. */
    SENGADLIT_TOO_LONG = 4,          /* The text is, or would become, longer than its max_length. */
    SENGADLIT_UNKNOWN_SYLLABLE = 5,  /* A syllable's kind is none of the shaper's; `index` is its first glyph. */
    SENGADLIT_SPANS_DONT_COVER = 6,  /* A span is empty, or the lengths don't add up to the text's. */
    SENGADLIT_STRETCH_OVERFLOW = 7,  /* A sum of advances doesn't fit 32 bits. */
    SENGADLIT_NOT_FOUND = 8,         /* The characters don't compose, or the character doesn't decompose. */
    SENGADLIT_INTERNAL = 9,          /* A fault of the library, or of a callback whose result changed: the buffer of
                                        the call is empty, with its properties, and may be used again. A message went to
                                        stderr, or where sengadlit_set_message_func says. */
    SENGADLIT_IN_CALL = 10,          /* Another call has the buffer: this one was made by a callback of it. */
    SENGADLIT_STATUS_MAX_VALUE = 0x7FFFFFFF
} sengadlit_status_t;

/* Which argument was rejected. */
typedef enum sengadlit_argument_t {
    SENGADLIT_ARGUMENT_NONE = 0,     /* None: the status isn't SENGADLIT_ARGUMENT. */
    SENGADLIT_ARGUMENT_SHAPER = 1,   /* No shaper by this number. */
    SENGADLIT_ARGUMENT_PLAN = 2,     /* Null. A null buffer has no place for an error: the status says all. */
    SENGADLIT_ARGUMENT_FONT = 3,     /* Null, or a function that the call uses is. */
    SENGADLIT_ARGUMENT_TABLES = 4,   /* A function that the call uses is null. */
    SENGADLIT_ARGUMENT_MAP = 5,      /* Null, or one of its functions is. */
    SENGADLIT_ARGUMENT_RESULT = 6,   /* A pointer to write a result to is null. */
    SENGADLIT_ARGUMENT_PAUSE = 7,    /* No pause by this number, or one that the plan's shaper doesn't have. */
    SENGADLIT_ARGUMENT_RANGE = 8,    /* Places that aren't in order, beyond the text, or too many. */
    SENGADLIT_ARGUMENT_SPANS = 9,    /* Null, or the kind of span `index` is above 15. */
    SENGADLIT_ARGUMENT_GLYPH_ID = 10, /* The hook doesn't accept that of glyph `index`, or a character among the arguments; or
                                        a lookup left glyph `index` with a number above 65535. */
    SENGADLIT_ARGUMENT_GLYPHS = 11,  /* An array that can't be lent: null, shorter than the text, or to the buffer of a lookup; or
                                        none was lent. */
    SENGADLIT_ARGUMENT_POSITIONS = 12, /* There are positions where the hook takes none, or none where it needs them; or a
                                        lookup of GPOS left another number of them, or of glyphs. */
    SENGADLIT_ARGUMENT_DIRECTION = 13,
    SENGADLIT_ARGUMENT_CLUSTER_LEVEL = 14,
    SENGADLIT_ARGUMENT_PROPERTIES = 15, /* Null. */
    SENGADLIT_ARGUMENT_CONTEXT = 16, /* Null, or character `index` isn't a Unicode scalar value. */
    SENGADLIT_ARGUMENT_INPUT = 17,   /* Null. */
    SENGADLIT_ARGUMENT_FEATURES = 18, /* Null, or the mask of feature `index` has one of the low three bits. */
    SENGADLIT_ARGUMENT_STAGES = 19,  /* Null, or stage `index` isn't a range of the lookups. */
    SENGADLIT_ARGUMENT_LOOKUPS = 20, /* Null, those of feature `index` are, or a function that the call uses is. */
    SENGADLIT_ARGUMENT_TEXT = 21,    /* Null. */
    SENGADLIT_ARGUMENT_CONTENT = 22, /* The buffer has glyphs where the call takes characters, or of two buffers the one has
                                        glyphs and the other characters; or no content type by this number. */
    SENGADLIT_ARGUMENT_FACE = 23,    /* Null. */
    SENGADLIT_ARGUMENT_DATA = 24,    /* Null, or no OpenType font, or one without the table head or maxp. */
    SENGADLIT_ARGUMENT_INDEX = 25,   /* The file has fewer fonts. */
    SENGADLIT_ARGUMENT_OPTIONS = 26, /* The size is none of the struct's, or a later header's field isn't 0; or a flag that isn't
                                        one of the call's. */
    SENGADLIT_ARGUMENT_LANGUAGE = 27, /* A tag of no character, or of more than 63. */
    SENGADLIT_ARGUMENT_MAX_VALUE = 0x7FFFFFFF
} sengadlit_argument_t;

typedef struct sengadlit_error_t {
    sengadlit_status_t status;
    sengadlit_argument_t argument;
    unsigned int index;              /* A place from 0 where `status` or `argument` names one, else 0. */
} sengadlit_error_t;

/* The name of a status or an argument as written above, "SENGADLIT_DONE"; "unknown" for another number. The text is the
   library's and stays. */
const char *sengadlit_status_name(sengadlit_status_t status);
const char *sengadlit_argument_name(sengadlit_argument_t argument);

/* Takes the message of an internal error, which says for a report on it where in the library it was found. The text ends
   with a zero byte, and is the library's, to be read during the call alone. The function is called on the thread of the call
   that ends with SENGADLIT_INTERNAL, and so on several at once if several use the library; it has to return, and must not
   call this library. */
typedef void (*sengadlit_message_func_t)(const char *message, void *user_data);

/* Where messages go, for the whole program: to this function, and nothing is written to stderr; if it is null, to stderr,
   as at first. A call on another thread may still hand one to the function that was set before. */
void sengadlit_set_message_func(sengadlit_message_func_t func, void *user_data);
/* That function, or null, and through `user_data`, which may be null, what it is given. */
sengadlit_message_func_t sengadlit_get_message_func(void **user_data);

/* ---- Shapers ---- */

typedef enum sengadlit_shaper_t {
    SENGADLIT_SHAPER_ARABIC = 0,     /* And Syriac, and scripts that join like them and have no shaper of their own. */
    SENGADLIT_SHAPER_HANGUL = 1,
    SENGADLIT_SHAPER_HEBREW = 2,
    SENGADLIT_SHAPER_INDIC = 3,
    SENGADLIT_SHAPER_KHMER = 4,
    SENGADLIT_SHAPER_MYANMAR = 5,
    SENGADLIT_SHAPER_MYANMAR_ZAWGYI = 6,
    SENGADLIT_SHAPER_THAI = 7,       /* And Lao. */
    SENGADLIT_SHAPER_UNIVERSAL = 8,  /* HarfBuzz's USE. */
    SENGADLIT_SHAPER_MAX_VALUE = 0x7FFFFFFF
} sengadlit_shaper_t;

/* The hooks that a shaper has, as bits. */
enum {
    SENGADLIT_HOOK_COLLECT_FEATURES = 0x01,
    SENGADLIT_HOOK_OVERRIDE_FEATURES = 0x02,
    SENGADLIT_HOOK_DATA_CREATE = 0x04,       /* The plan keeps something: see sengadlit_plan_data_t. */
    SENGADLIT_HOOK_PREPROCESS_TEXT = 0x08,
    SENGADLIT_HOOK_POSTPROCESS_GLYPHS = 0x10,
    SENGADLIT_HOOK_DECOMPOSE = 0x20,
    SENGADLIT_HOOK_COMPOSE = 0x40,
    SENGADLIT_HOOK_SETUP_MASKS = 0x80,
    SENGADLIT_HOOK_REORDER_MARKS = 0x100
};

/* As hb_ot_shape_normalization_mode_t; the shapers here use three of its modes. */
typedef enum sengadlit_normalization_mode_t {
    SENGADLIT_NORMALIZATION_MODE_NONE = 0,
    SENGADLIT_NORMALIZATION_MODE_COMPOSED_DIACRITICS_NO_SHORT_CIRCUIT = 3,
    SENGADLIT_NORMALIZATION_MODE_AUTO = 4,
    SENGADLIT_NORMALIZATION_MODE_MAX_VALUE = 0x7FFFFFFF
} sengadlit_normalization_mode_t;

/* As hb_ot_shape_zero_width_marks_type_t: when the advances of marks become 0. */
typedef enum sengadlit_zero_width_marks_t {
    SENGADLIT_ZERO_WIDTH_MARKS_NONE = 0,
    SENGADLIT_ZERO_WIDTH_MARKS_BY_GDEF_EARLY = 1, /* Before GPOS. */
    SENGADLIT_ZERO_WIDTH_MARKS_BY_GDEF_LATE = 2,  /* After GPOS. */
    SENGADLIT_ZERO_WIDTH_MARKS_MAX_VALUE = 0x7FFFFFFF
} sengadlit_zero_width_marks_t;

/* What holds of a shaper whatever the text and the font. */
typedef struct sengadlit_shaper_constants_t {
    size_t size;                     /* sizeof. */
    uint32_t hooks;                  /* SENGADLIT_HOOK_.. */
    sengadlit_tag_t gpos_tag;        /* Marks are left to GPOS only if it chose this script; 0 if any will do. */
    sengadlit_normalization_mode_t normalization_preference;
    sengadlit_zero_width_marks_t zero_width_marks;
    sengadlit_bool_t fallback_position; /* Whether marks are placed by their classes where the font doesn't place them. */
} sengadlit_shaper_constants_t;

/* Writes all but the size. ARGUMENT (and `constants` is as it was): no such shaper, a null pointer, or a wrong size. */
sengadlit_status_t sengadlit_shaper_get_constants(sengadlit_shaper_t shaper, sengadlit_shaper_constants_t *constants);

/* The shaper for a text, as HarfBuzz chooses it: by its script (0 if it isn't known), its direction, and the script tag that
   the font's GSUB was found to offer, or 0. `chosen_script` as in sengadlit_plan_input_t. ABSENT (and `shaper` is as it was):
   no shaper has hooks for such a text. ARGUMENT: no such direction, or a null pointer. */
sengadlit_status_t sengadlit_shaper_for_script(sengadlit_tag_t script, sengadlit_direction_t direction,
                                               sengadlit_tag_t chosen_script, sengadlit_shaper_t *shaper);

/* ---- Callbacks ---- */

/* The font. A function that no call uses may be null: each call below says which ones it calls. */
typedef struct sengadlit_font_funcs_t {
    size_t size;                     /* sizeof. */
    /* Writes the nominal glyph of a character, as the font's cmap has it, and returns whether there is one. A glyph above
       65535 counts as none. */
    sengadlit_bool_t (*nominal_glyph)(void *user_data, uint32_t unicode, uint32_t *glyph);
    /* The horizontal advance of a glyph, in font units; positive where the text runs right to left, too. */
    int32_t (*glyph_h_advance)(void *user_data, uint32_t glyph);
    /* Whether one of these lookups of GSUB would substitute exactly these glyphs; with `zero_context` only if it needs
       no context around them. As hb_ot_layout_lookup_would_substitute, of each lookup. There is at least one lookup, and
       there are one to three glyphs. */
    sengadlit_bool_t (*would_substitute)(void *user_data, const uint16_t *lookups, unsigned int lookups_length,
                                         const uint32_t *glyphs, unsigned int glyphs_length, sengadlit_bool_t zero_context);
    /* Whether the font's GSUB has a feature, as hb_ot_map_builder_t::has_feature. */
    sengadlit_bool_t (*has_feature)(void *user_data, sengadlit_tag_t tag);
} sengadlit_font_funcs_t;

/* As the shapers' joining tables in HarfBuzz number them. */
enum {
    SENGADLIT_JOINING_TYPE_U = 0,
    SENGADLIT_JOINING_TYPE_L = 1,
    SENGADLIT_JOINING_TYPE_R = 2,
    SENGADLIT_JOINING_TYPE_D = 3,            /* And C: join-causing. */
    SENGADLIT_JOINING_GROUP_ALAPH = 4,
    SENGADLIT_JOINING_GROUP_DALATH_RISH = 5,
    SENGADLIT_JOINING_TYPE_T = 7,
    SENGADLIT_JOINING_TYPE_X = 8             /* T for categories Mn, Me and Cf, else U. */
};

/* Categories and positions. The numbers are those of HarfBuzz 13.0.0 by HarfRust 0.12.0, which follows it: ot_category_t,
   ot_position_t, and the machine of the universal shaper. HarfBuzz 6.0.0 has fewer of them (no SMPST, no RK), numbered alike. */
enum {
    SENGADLIT_INDIC_CATEGORY_X = 0,              /* Another character. */
    SENGADLIT_INDIC_CATEGORY_C = 1,              /* Consonant. */
    SENGADLIT_INDIC_CATEGORY_V = 2,              /* Independent vowel. */
    SENGADLIT_INDIC_CATEGORY_N = 3,              /* Nukta. */
    SENGADLIT_INDIC_CATEGORY_H = 4,              /* Halant. */
    SENGADLIT_INDIC_CATEGORY_ZWNJ = 5,
    SENGADLIT_INDIC_CATEGORY_ZWJ = 6,
    SENGADLIT_INDIC_CATEGORY_M = 7,              /* Matra. */
    SENGADLIT_INDIC_CATEGORY_SM = 8,             /* Syllable modifier. */
    SENGADLIT_INDIC_CATEGORY_A = 9,              /* Vedic accent. */
    SENGADLIT_INDIC_CATEGORY_PLACEHOLDER = 10,
    SENGADLIT_INDIC_CATEGORY_DOTTEDCIRCLE = 11,
    SENGADLIT_INDIC_CATEGORY_RS = 12,            /* Register shifter. */
    SENGADLIT_INDIC_CATEGORY_MPST = 13,          /* Matra behind post-base consonants. */
    SENGADLIT_INDIC_CATEGORY_REPHA = 14,         /* Reph with a character of its own. */
    SENGADLIT_INDIC_CATEGORY_RA = 15,            /* The letter that becomes a reph. */
    SENGADLIT_INDIC_CATEGORY_CM = 16,            /* Medial consonant. */
    SENGADLIT_INDIC_CATEGORY_SYMBOL = 17,
    SENGADLIT_INDIC_CATEGORY_CS = 18,            /* Consonant with a stacker. */
    SENGADLIT_INDIC_CATEGORY_SMPST = 57          /* Syllable modifier behind others. */
};
enum {
    SENGADLIT_KHMER_CATEGORY_X = 0,
    SENGADLIT_KHMER_CATEGORY_C = 1,
    SENGADLIT_KHMER_CATEGORY_V = 2,
    SENGADLIT_KHMER_CATEGORY_H = 4,              /* Coeng. */
    SENGADLIT_KHMER_CATEGORY_ZWNJ = 5,
    SENGADLIT_KHMER_CATEGORY_ZWJ = 6,
    SENGADLIT_KHMER_CATEGORY_PLACEHOLDER = 10,
    SENGADLIT_KHMER_CATEGORY_DOTTEDCIRCLE = 11,
    SENGADLIT_KHMER_CATEGORY_RA = 15,            /* Ro. */
    SENGADLIT_KHMER_CATEGORY_VABV = 20,          /* Vowel above the base. */
    SENGADLIT_KHMER_CATEGORY_VBLW = 21,          /* Below it. */
    SENGADLIT_KHMER_CATEGORY_VPRE = 22,          /* Before it. */
    SENGADLIT_KHMER_CATEGORY_VPST = 23,          /* Behind it. */
    SENGADLIT_KHMER_CATEGORY_ROBATIC = 25,
    SENGADLIT_KHMER_CATEGORY_XGROUP = 26,        /* Sign that follows a base or a vowel. */
    SENGADLIT_KHMER_CATEGORY_YGROUP = 27         /* Sign that closes a syllable. */
};
enum {
    SENGADLIT_MYANMAR_CATEGORY_X = 0,
    SENGADLIT_MYANMAR_CATEGORY_C = 1,
    SENGADLIT_MYANMAR_CATEGORY_IV = 2,           /* Independent vowel. */
    SENGADLIT_MYANMAR_CATEGORY_DB = 3,           /* Dot below: N of Indic. */
    SENGADLIT_MYANMAR_CATEGORY_H = 4,            /* Virama. */
    SENGADLIT_MYANMAR_CATEGORY_ZWNJ = 5,
    SENGADLIT_MYANMAR_CATEGORY_ZWJ = 6,
    SENGADLIT_MYANMAR_CATEGORY_SM = 8,           /* Visarga and tones of Shan. */
    SENGADLIT_MYANMAR_CATEGORY_A = 9,            /* Anusvara. */
    SENGADLIT_MYANMAR_CATEGORY_GB = 10,          /* Generic base: PLACEHOLDER of Indic. */
    SENGADLIT_MYANMAR_CATEGORY_DOTTEDCIRCLE = 11,
    SENGADLIT_MYANMAR_CATEGORY_RA = 15,          /* Letter of a Kinzi. */
    SENGADLIT_MYANMAR_CATEGORY_CS = 18,
    SENGADLIT_MYANMAR_CATEGORY_VABV = 20,
    SENGADLIT_MYANMAR_CATEGORY_VBLW = 21,
    SENGADLIT_MYANMAR_CATEGORY_VPRE = 22,
    SENGADLIT_MYANMAR_CATEGORY_VPST = 23,
    SENGADLIT_MYANMAR_CATEGORY_AS = 32,          /* Asat. */
    SENGADLIT_MYANMAR_CATEGORY_MH = 35,          /* Medial Ha. */
    SENGADLIT_MYANMAR_CATEGORY_MR = 36,          /* Medial Ra. */
    SENGADLIT_MYANMAR_CATEGORY_MW = 37,          /* Medial Wa. */
    SENGADLIT_MYANMAR_CATEGORY_MY = 38,          /* Medial Ya. */
    SENGADLIT_MYANMAR_CATEGORY_PT = 39,          /* Tone of Pwo and other languages. */
    SENGADLIT_MYANMAR_CATEGORY_VS = 40,          /* Variation selector. */
    SENGADLIT_MYANMAR_CATEGORY_ML = 41,          /* Medial La of Mon. */
    SENGADLIT_MYANMAR_CATEGORY_SMPST = 57
};
enum {
    SENGADLIT_USE_CATEGORY_O = 0,                /* Another character. */
    SENGADLIT_USE_CATEGORY_B = 1,                /* Base. */
    SENGADLIT_USE_CATEGORY_N = 4,                /* Number that is a base. */
    SENGADLIT_USE_CATEGORY_GB = 5,               /* Generic base. */
    SENGADLIT_USE_CATEGORY_CGJ = 6,              /* Combining grapheme joiner. */
    SENGADLIT_USE_CATEGORY_SUB = 11,             /* Consonant below the base. */
    SENGADLIT_USE_CATEGORY_H = 12,               /* Halant. */
    SENGADLIT_USE_CATEGORY_HN = 13,              /* Halant of numbers. */
    SENGADLIT_USE_CATEGORY_ZWNJ = 14,
    SENGADLIT_USE_CATEGORY_WJ = 16,              /* Word joiner. */
    SENGADLIT_USE_CATEGORY_R = 18,               /* Repha. */
    SENGADLIT_USE_CATEGORY_VPRE = 22,            /* Vowels: before the base. */
    SENGADLIT_USE_CATEGORY_VMPRE = 23,           /* Vowel modifiers: before the base. */
    SENGADLIT_USE_CATEGORY_FABV = 24,            /* Final consonants: above, below, behind. */
    SENGADLIT_USE_CATEGORY_FBLW = 25,
    SENGADLIT_USE_CATEGORY_FPST = 26,
    SENGADLIT_USE_CATEGORY_MABV = 27,            /* Medial consonants: above, below, behind, before. */
    SENGADLIT_USE_CATEGORY_MBLW = 28,
    SENGADLIT_USE_CATEGORY_MPST = 29,
    SENGADLIT_USE_CATEGORY_MPRE = 30,
    SENGADLIT_USE_CATEGORY_CMABV = 31,           /* Consonant modifiers: above, below. */
    SENGADLIT_USE_CATEGORY_CMBLW = 32,
    SENGADLIT_USE_CATEGORY_VABV = 33,            /* Vowels: above, below, behind. */
    SENGADLIT_USE_CATEGORY_VBLW = 34,
    SENGADLIT_USE_CATEGORY_VPST = 35,
    SENGADLIT_USE_CATEGORY_VMABV = 37,           /* Vowel modifiers: above, below, behind. */
    SENGADLIT_USE_CATEGORY_VMBLW = 38,
    SENGADLIT_USE_CATEGORY_VMPST = 39,
    SENGADLIT_USE_CATEGORY_SMABV = 41,           /* Marks of symbols: above, below. */
    SENGADLIT_USE_CATEGORY_SMBLW = 42,
    SENGADLIT_USE_CATEGORY_CS = 43,              /* Consonant with a stacker. */
    SENGADLIT_USE_CATEGORY_IS = 44,              /* Stacker that isn't seen. */
    SENGADLIT_USE_CATEGORY_FMABV = 45,           /* Modifiers of finals: above, below, behind. */
    SENGADLIT_USE_CATEGORY_FMBLW = 46,
    SENGADLIT_USE_CATEGORY_FMPST = 47,
    SENGADLIT_USE_CATEGORY_SK = 48,              /* Sakot. */
    SENGADLIT_USE_CATEGORY_G = 49,               /* Hieroglyph. */
    SENGADLIT_USE_CATEGORY_J = 50,               /* Joiner of hieroglyphs. */
    SENGADLIT_USE_CATEGORY_SB = 51,              /* Sign that begins a segment of hieroglyphs. */
    SENGADLIT_USE_CATEGORY_SE = 52,              /* One that ends it. */
    SENGADLIT_USE_CATEGORY_HVM = 53,             /* Halant or vowel modifier. */
    SENGADLIT_USE_CATEGORY_HM = 54,              /* Modifier of hieroglyphs. */
    SENGADLIT_USE_CATEGORY_HR = 55,              /* Mirror of hieroglyphs. */
    SENGADLIT_USE_CATEGORY_RK = 56               /* Reordering killer. */
};
/* The places in a syllable, in the order in which Indic sorts by them. */
enum {
    SENGADLIT_INDIC_POSITION_START = 0,
    SENGADLIT_INDIC_POSITION_RA_TO_BECOME_REPH = 1,
    SENGADLIT_INDIC_POSITION_PRE_M = 2,          /* M: matras. */
    SENGADLIT_INDIC_POSITION_PRE_C = 3,          /* C: consonants. */
    SENGADLIT_INDIC_POSITION_BASE_C = 4,
    SENGADLIT_INDIC_POSITION_AFTER_MAIN = 5,     /* Behind the base. */
    SENGADLIT_INDIC_POSITION_ABOVE_C = 6,
    SENGADLIT_INDIC_POSITION_BEFORE_SUB = 7,     /* SUB: consonants below the base. */
    SENGADLIT_INDIC_POSITION_BELOW_C = 8,
    SENGADLIT_INDIC_POSITION_AFTER_SUB = 9,
    SENGADLIT_INDIC_POSITION_BEFORE_POST = 10,   /* POST: consonants behind the base. */
    SENGADLIT_INDIC_POSITION_POST_C = 11,
    SENGADLIT_INDIC_POSITION_AFTER_POST = 12,
    SENGADLIT_INDIC_POSITION_SMVD = 13,          /* Syllable modifiers and Vedic signs. */
    SENGADLIT_INDIC_POSITION_END = 14
};

/* The Unicode Character Database and the shapers' tables. A function that no call uses may be null. Where a call takes null
   tables, they are the library's own, of Unicode 17.0. */
typedef struct sengadlit_tables_funcs_t {
    size_t size;                     /* sizeof. */
    /* SENGADLIT_JOINING_..; any other number counts as U. */
    uint8_t (*joining_type)(void *user_data, uint32_t unicode);
    /* SENGADLIT_UNICODE_GENERAL_CATEGORY_..; any other number counts as UNASSIGNED. */
    uint8_t (*general_category)(void *user_data, uint32_t unicode);
    /* For Indic, Khmer and Myanmar: SENGADLIT_.._CATEGORY_.., and 256 times SENGADLIT_INDIC_POSITION_.., as
       hb_indic_get_categories. The hooks take any number; one without a name here is a category that no rule names. */
    uint16_t (*indic_categories)(void *user_data, uint32_t unicode);
    /* For the universal shaper: SENGADLIT_USE_CATEGORY_.., as hb_use_get_category. The hooks take any number. */
    uint8_t (*use_category)(void *user_data, uint32_t unicode);
    /* Canonical composition and decomposition into two, as hb_unicode_compose and hb_unicode_decompose. What isn't a
       Unicode scalar value counts as none. */
    sengadlit_bool_t (*compose)(void *user_data, uint32_t a, uint32_t b, uint32_t *ab);
    sengadlit_bool_t (*decompose)(void *user_data, uint32_t ab, uint32_t *a, uint32_t *b);
} sengadlit_tables_funcs_t;

typedef enum sengadlit_pause_t {
    SENGADLIT_PAUSE_SETUP_SYLLABLES_INDIC = 0,
    SENGADLIT_PAUSE_SETUP_SYLLABLES_KHMER = 1,
    SENGADLIT_PAUSE_SETUP_SYLLABLES_MYANMAR = 2,
    SENGADLIT_PAUSE_SETUP_SYLLABLES_USE = 3,
    SENGADLIT_PAUSE_INITIAL_REORDERING = 4,
    SENGADLIT_PAUSE_REORDER_KHMER = 5,
    SENGADLIT_PAUSE_REORDER_MYANMAR = 6,
    SENGADLIT_PAUSE_REORDER_USE = 7,
    SENGADLIT_PAUSE_FINAL_REORDERING = 8,
    SENGADLIT_PAUSE_RECORD_STCH = 9,
    SENGADLIT_PAUSE_RECORD_RPHF = 10,
    SENGADLIT_PAUSE_RECORD_PREF = 11,
    SENGADLIT_PAUSE_SYLLABIC_CLEAR_VAR = 12,
    SENGADLIT_PAUSE_CLEAR_SUBSTITUTION_FLAGS = 13,
    SENGADLIT_PAUSE_ARABIC_FALLBACK_SHAPE = 14, /* Changes nothing: there is no fallback shaper here. */
    SENGADLIT_PAUSE_NONE = 0xFF,     /* For add_gsub_pause alone: stages end here, and there is nothing to do. */
    SENGADLIT_PAUSE_MAX_VALUE = 0x7FFFFFFF
} sengadlit_pause_t;

/* Flags of a feature, as hb_ot_map_feature_flags_t. */
enum {
    SENGADLIT_FEATURE_GLOBAL = 0x01,
    SENGADLIT_FEATURE_HAS_FALLBACK = 0x02,
    SENGADLIT_FEATURE_MANUAL_ZWNJ = 0x04,
    SENGADLIT_FEATURE_MANUAL_ZWJ = 0x08,
    SENGADLIT_FEATURE_PER_SYLLABLE = 0x40
};

/* Where a shaper puts its requests to the map, in order, as hb_ot_map_builder_t. Neither may be null. */
typedef struct sengadlit_map_funcs_t {
    size_t size;                     /* sizeof. */
    void (*add_feature)(void *user_data, sengadlit_tag_t tag, uint32_t flags, uint32_t value); /* Value 0: off. */
    void (*add_gsub_pause)(void *user_data, sengadlit_pause_t pause);
} sengadlit_map_funcs_t;

/* Functions, and the `user_data` that each gets as its first argument, which may be null. Nothing is kept after a call. */
typedef struct sengadlit_font_t {
    const sengadlit_font_funcs_t *funcs;
    void *user_data;
} sengadlit_font_t;

typedef struct sengadlit_tables_t {
    const sengadlit_tables_funcs_t *funcs;
    void *user_data;
} sengadlit_tables_t;

typedef struct sengadlit_map_t {
    const sengadlit_map_funcs_t *funcs;
    void *user_data;
} sengadlit_map_t;

/* The library's own tables, which are there for good: for who asks Unicode, or has only some functions of one's own. */
const sengadlit_tables_t *sengadlit_tables_default(void);

/* ---- Plans ---- */

/* Adds the features and pauses that the shaper requests before those of every script. `font` may be null except for
   SENGADLIT_SHAPER_ARABIC, which calls has_feature. `error` may be null; it is written unless DONE or ABSENT is returned.
   The map is called only when the whole list is there, so that no callback of it runs where MEMORY is returned.
   ARGUMENT: SHAPER, FONT, MAP. */
sengadlit_status_t sengadlit_collect_features(sengadlit_shaper_t shaper, sengadlit_tag_t script, const sengadlit_font_t *font,
                                              const sengadlit_map_t *map, sengadlit_error_t *error);
/* The same for those that it requests after those of every script. ARGUMENT: SHAPER, MAP. */
sengadlit_status_t sengadlit_override_features(sengadlit_shaper_t shaper, sengadlit_tag_t script, const sengadlit_map_t *map,
                                               sengadlit_error_t *error);

/* A feature of the compiled map: as hb_ot_map_t::feature_map_t, of GSUB. */
typedef struct sengadlit_feature_t {
    sengadlit_tag_t tag;
    uint32_t mask;                   /* None of the low three bits, which are the glyph flags. */
    uint32_t stage;                  /* The place of its stage in `stages`; one beyond them has no lookups. */
} sengadlit_feature_t;

/* The lookups of a stage: those of `lookups` from place `start` to before `end`. */
typedef struct sengadlit_stage_t {
    uint32_t start;
    uint32_t end;
} sengadlit_stage_t;

/* What was made of the font's GSUB and the requested features. Fields that aren't needed are 0, by an initializer. */
typedef struct sengadlit_plan_input_t {
    size_t size;                     /* sizeof. */
    sengadlit_tag_t script;          /* Of the text; 0 if it isn't known. */
    sengadlit_tag_t chosen_script;   /* The script tag that GSUB was found to offer, as hb_ot_map_t::chosen_script; or 0. */
    sengadlit_bool_t found_script;   /* Whether that is one of the script's own tags; read for Thai alone. */
    sengadlit_bool_t has_gpos_mark;  /* Whether GPOS has the feature `mark`: read by Hebrew's compose. */
    sengadlit_bool_t centres_stretch; /* Whether the tiles of stretched marks are centred; else as rustybuzz lays them. */
    sengadlit_bool_t sound_breaks;   /* Whether the places are flagged, too, where HarfBuzz sets no flag although a break there
                                        changes glyphs (BreakFlags::Sound in docs/GUIDE.md). */
    uint32_t global_mask;            /* As hb_ot_map_t::global_mask. */
    sengadlit_bool_t searches_medials; /* Whether Indic looks for a base among medial consonants too, as HarfBuzz does. */
    const sengadlit_feature_t *features; /* Of two with one tag the first counts. Each list may be null if its length is 0. */
    unsigned int features_length;
    const sengadlit_stage_t *stages; /* Only Indic uses lookups: others need no stages. */
    unsigned int stages_length;
    const uint16_t *lookups;         /* Numbers that are passed to would_substitute; the library makes no other use of them. */
    unsigned int lookups_length;
    void *user_data;                 /* Kept by the plan; may be null. */
    sengadlit_destroy_func_t destroy; /* Called once with `user_data`: when the last reference to the plan is dropped,
                                        on that thread, or before sengadlit_plan_create returns null; may be null. */
    sengadlit_bool_t new_spec_zero_context; /* Whether Indic asks the font for rules without context in fonts of the newer
                                        specification, as HarfBuzz does; else in those of the older one, as rustybuzz does. For
                                        Malayalam it never does. */
} sengadlit_plan_input_t;

typedef struct sengadlit_plan_t sengadlit_plan_t;

/* Makes a plan with one reference, the caller's. All but the user data is copied. `error` may be null; it is written where
   null is returned: MEMORY, INTERNAL, or ARGUMENT: SHAPER, INPUT, FEATURES, STAGES, LOOKUPS. */
sengadlit_plan_t *sengadlit_plan_create(sengadlit_shaper_t shaper, const sengadlit_plan_input_t *input,
                                        sengadlit_error_t *error);
/* Adds a reference and returns `plan`, which may be null. Any thread that has a reference may call these two. */
sengadlit_plan_t *sengadlit_plan_reference(sengadlit_plan_t *plan);
/* Drops a reference; the last one frees the plan. `plan` may be null. */
void sengadlit_plan_destroy(sengadlit_plan_t *plan);

/* The user data that the plan keeps; null for a null plan. */
void *sengadlit_plan_get_user_data(const sengadlit_plan_t *plan);

/* What the shaper keeps in the plan: for callers that skip calls which would change nothing. */
typedef struct sengadlit_plan_data_t {
    size_t size;                     /* sizeof. */
    sengadlit_shaper_t shaper;
    sengadlit_bool_t joins;          /* Whether letters join: Arabic, and scripts of the universal shaper that do. */
    sengadlit_bool_t has_stch;       /* Whether the font stretches marks: else RECORD_STCH and postprocess_glyphs do nothing. */
    uint32_t rphf_mask;              /* Universal: where it is 0, RECORD_RPHF does nothing. */
    uint32_t masks[9];               /* Where letters join: isol, fina, fin2, fin3, medi, med2, init. Hangul: none, ljmo,
                                        vjmo, tjmo. Khmer: pref, blwf, abvf, pstf, cfar, pres, blws, abvs, psts. */
} sengadlit_plan_data_t;

/* Writes all but the size. ARGUMENT (and `data` is as it was): a null pointer, or a wrong size. */
sengadlit_status_t sengadlit_plan_get_data(const sengadlit_plan_t *plan, sengadlit_plan_data_t *data);

/* ---- Buffers ---- */

/* The low three bits of `mask`, as hb_glyph_flags_t. */
enum {
    SENGADLIT_GLYPH_FLAG_UNSAFE_TO_BREAK = 0x01,
    SENGADLIT_GLYPH_FLAG_UNSAFE_TO_CONCAT = 0x02,
    SENGADLIT_GLYPH_FLAG_SAFE_TO_INSERT_TATWEEL = 0x04,
    SENGADLIT_GLYPH_FLAG_DEFINED = 0x07
};

/* Bits of `glyph_props`, as HarfBuzz has them. No hook reads or writes those without a name here, nor the class. */
enum {
    SENGADLIT_GLYPH_PROPS_BASE_GLYPH = 0x02,  /* The class in GDEF. */
    SENGADLIT_GLYPH_PROPS_LIGATURE = 0x04,
    SENGADLIT_GLYPH_PROPS_MARK = 0x08,
    SENGADLIT_GLYPH_PROPS_SUBSTITUTED = 0x10, /* A lookup put the glyph in; */
    SENGADLIT_GLYPH_PROPS_LIGATED = 0x20,     /* in for several; */
    SENGADLIT_GLYPH_PROPS_MULTIPLIED = 0x40   /* as one of several for one. */
};

/* The component of `lig_props`, as _hb_glyph_info_get_lig_comp: 0 to 15. */
#define SENGADLIT_LIG_PROPS_COMPONENT(lig_props) (((lig_props) & 0x10) != 0 ? 0u : (lig_props) & 0x0Fu)

/* Bits of `unicode_props`, as HarfBuzz has them. */
enum {
    SENGADLIT_UNICODE_PROPS_GENERAL_CATEGORY = 0x1F, /* SENGADLIT_UNICODE_GENERAL_CATEGORY_..; 30 and 31 count as UNASSIGNED. */
    SENGADLIT_UNICODE_PROPS_IGNORABLE = 0x20,    /* Default_Ignorable_Code_Point. */
    SENGADLIT_UNICODE_PROPS_HIDDEN = 0x40,       /* Lookups see it, though it is ignorable. No hook reads or writes it. */
    SENGADLIT_UNICODE_PROPS_CONTINUATION = 0x80, /* It continues the grapheme of the one before. */
    SENGADLIT_UNICODE_PROPS_HIGH_BYTE = 0xFF00   /* The modified combining class, but of FORMAT and SPACE_SEPARATOR. */
};

/* `unicode_props` of this general category with this high byte, and none of the three bits between. */
#define SENGADLIT_UNICODE_PROPS(general_category, high_byte) \
    ((uint16_t)((unsigned int)(general_category) | (unsigned int)(high_byte) << 8))
/* The general category in `unicode_props`, and the modified combining class, which is 0 for FORMAT and SPACE_SEPARATOR: their
   high byte says which joiner or which kind of space it is. */
#define SENGADLIT_UNICODE_PROPS_GET_GENERAL_CATEGORY(unicode_props) ((uint8_t)((unicode_props) & 0x1F))
#define SENGADLIT_UNICODE_PROPS_GET_COMBINING_CLASS(unicode_props) \
    ((uint8_t)((0x20000002u >> ((unicode_props) & 0x1F) & 1u) != 0 ? 0u : (unsigned int)(unicode_props) >> 8))

/* As hb_unicode_general_category_t. */
enum {
    SENGADLIT_UNICODE_GENERAL_CATEGORY_CONTROL = 0,              /* Cc */
    SENGADLIT_UNICODE_GENERAL_CATEGORY_FORMAT = 1,               /* Cf */
    SENGADLIT_UNICODE_GENERAL_CATEGORY_UNASSIGNED = 2,           /* Cn */
    SENGADLIT_UNICODE_GENERAL_CATEGORY_PRIVATE_USE = 3,          /* Co */
    SENGADLIT_UNICODE_GENERAL_CATEGORY_SURROGATE = 4,            /* Cs */
    SENGADLIT_UNICODE_GENERAL_CATEGORY_LOWERCASE_LETTER = 5,     /* Ll */
    SENGADLIT_UNICODE_GENERAL_CATEGORY_MODIFIER_LETTER = 6,      /* Lm */
    SENGADLIT_UNICODE_GENERAL_CATEGORY_OTHER_LETTER = 7,         /* Lo */
    SENGADLIT_UNICODE_GENERAL_CATEGORY_TITLECASE_LETTER = 8,     /* Lt */
    SENGADLIT_UNICODE_GENERAL_CATEGORY_UPPERCASE_LETTER = 9,     /* Lu */
    SENGADLIT_UNICODE_GENERAL_CATEGORY_SPACING_MARK = 10,        /* Mc */
    SENGADLIT_UNICODE_GENERAL_CATEGORY_ENCLOSING_MARK = 11,      /* Me */
    SENGADLIT_UNICODE_GENERAL_CATEGORY_NON_SPACING_MARK = 12,    /* Mn */
    SENGADLIT_UNICODE_GENERAL_CATEGORY_DECIMAL_NUMBER = 13,      /* Nd */
    SENGADLIT_UNICODE_GENERAL_CATEGORY_LETTER_NUMBER = 14,       /* Nl */
    SENGADLIT_UNICODE_GENERAL_CATEGORY_OTHER_NUMBER = 15,        /* No */
    SENGADLIT_UNICODE_GENERAL_CATEGORY_CONNECT_PUNCTUATION = 16, /* Pc */
    SENGADLIT_UNICODE_GENERAL_CATEGORY_DASH_PUNCTUATION = 17,    /* Pd */
    SENGADLIT_UNICODE_GENERAL_CATEGORY_CLOSE_PUNCTUATION = 18,   /* Pe */
    SENGADLIT_UNICODE_GENERAL_CATEGORY_FINAL_PUNCTUATION = 19,   /* Pf */
    SENGADLIT_UNICODE_GENERAL_CATEGORY_INITIAL_PUNCTUATION = 20, /* Pi */
    SENGADLIT_UNICODE_GENERAL_CATEGORY_OTHER_PUNCTUATION = 21,   /* Po */
    SENGADLIT_UNICODE_GENERAL_CATEGORY_OPEN_PUNCTUATION = 22,    /* Ps */
    SENGADLIT_UNICODE_GENERAL_CATEGORY_CURRENCY_SYMBOL = 23,     /* Sc */
    SENGADLIT_UNICODE_GENERAL_CATEGORY_MODIFIER_SYMBOL = 24,     /* Sk */
    SENGADLIT_UNICODE_GENERAL_CATEGORY_MATH_SYMBOL = 25,         /* Sm */
    SENGADLIT_UNICODE_GENERAL_CATEGORY_OTHER_SYMBOL = 26,        /* So */
    SENGADLIT_UNICODE_GENERAL_CATEGORY_LINE_SEPARATOR = 27,      /* Zl */
    SENGADLIT_UNICODE_GENERAL_CATEGORY_PARAGRAPH_SEPARATOR = 28, /* Zp */
    SENGADLIT_UNICODE_GENERAL_CATEGORY_SPACE_SEPARATOR = 29      /* Zs */
};

/* A glyph, or before the font's mapping a character: 20 bytes, each where hb_glyph_info_t has it and HarfBuzz's shapers keep
   it. Each hook below says which fields it reads; the others it carries along with the glyph, so that they may hold anything of
   the caller's. In a dotted circle that a pause adds they are 0; where a hook makes two glyphs of one, both have what it had. */
typedef struct sengadlit_glyph_info_t {
    uint32_t glyph_id;               /* A character before the font's mapping, a glyph number after it. */
    uint32_t mask;                   /* The features that are on, and glyph flags. Before sengadlit_setup_masks: the plan's
                                        global_mask, to which the hooks add bits of features. */
    uint32_t cluster;                /* The place in the text that it leads back to. */
    uint16_t glyph_props;            /* SENGADLIT_GLYPH_PROPS_..: what lookups did to it. */
    uint8_t lig_props;               /* The ligature that it is or belongs to: SENGADLIT_LIG_PROPS_COMPONENT. */
    uint8_t syllable;                /* A serial in the high four bits, the kind in the low four; 0 in no syllable. */
    uint16_t unicode_props;          /* SENGADLIT_UNICODE_PROPS_..: what its character is. */
    uint8_t category;                /* ot_shaper_var_u8_category of HarfBuzz. */
    uint8_t auxiliary;               /* ot_shaper_var_u8_auxiliary: a joining form, a jamo's kind or a position. */
} sengadlit_glyph_info_t;

/* The modified combining class of a character in Unicode 17.0, which HarfBuzz sorts marks by: general ones are Unicode's, and
   those of Hebrew, Arabic, Telugu, Thai, Lao and Tibetan are others. 0 for what is no character. */
uint8_t sengadlit_modified_combining_class(uint32_t unicode);

/* Where a glyph is drawn and how far it moves the pen, in font units: 20 bytes, as hb_glyph_position_t. */
typedef struct sengadlit_glyph_position_t {
    int32_t x_advance;
    int32_t y_advance;
    int32_t x_offset;
    int32_t y_offset;
    uint32_t var;                    /* What the caller's lookups keep with it: the hooks carry it along. */
} sengadlit_glyph_position_t;

/* As hb_buffer_cluster_level_t. */
typedef enum sengadlit_buffer_cluster_level_t {
    SENGADLIT_BUFFER_CLUSTER_LEVEL_MONOTONE_GRAPHEMES = 0,
    SENGADLIT_BUFFER_CLUSTER_LEVEL_MONOTONE_CHARACTERS = 1,
    SENGADLIT_BUFFER_CLUSTER_LEVEL_CHARACTERS = 2,
    SENGADLIT_BUFFER_CLUSTER_LEVEL_GRAPHEMES = 3, /* In any order. Where no face shapes the text, it counts as CHARACTERS. */
    SENGADLIT_BUFFER_CLUSTER_LEVEL_MAX_VALUE = 0x7FFFFFFF
} sengadlit_buffer_cluster_level_t;

/* As hb_buffer_flags_t: its other flags may be set too, and change nothing. The first four are read by the calls that shape whole
   texts: at the beginning of a paragraph a mark that nothing carries gets a dotted circle, nothing depends on the end, and of the
   other two PRESERVE counts where both are set. */
enum {
    SENGADLIT_BUFFER_FLAG_BOT = 0x01,
    SENGADLIT_BUFFER_FLAG_EOT = 0x02,
    SENGADLIT_BUFFER_FLAG_PRESERVE_DEFAULT_IGNORABLES = 0x04,
    SENGADLIT_BUFFER_FLAG_REMOVE_DEFAULT_IGNORABLES = 0x08,
    SENGADLIT_BUFFER_FLAG_DO_NOT_INSERT_DOTTED_CIRCLE = 0x10,
    SENGADLIT_BUFFER_FLAG_PRODUCE_UNSAFE_TO_CONCAT = 0x40,
    SENGADLIT_BUFFER_FLAG_PRODUCE_SAFE_TO_INSERT_TATWEEL = 0x80
};

/* Properties of the text as a whole. Fields of zeros, as SENGADLIT_INIT makes them, are those of a new buffer. */
typedef struct sengadlit_buffer_properties_t {
    size_t size;                     /* sizeof. */
    sengadlit_tag_t script;          /* 0 if it isn't known. */
    sengadlit_direction_t direction; /* INVALID, which is 0, if it isn't set; hooks take it for LTR. */
    sengadlit_buffer_cluster_level_t cluster_level;
    uint32_t flags;                  /* SENGADLIT_BUFFER_FLAG_.. */
    uint32_t max_length;             /* A hook that would make the text longer returns TOO_LONG, and so does a stretched mark
                                        that doesn't fit; a lookup that would is left out. 0 if no length is set:
                                        sengadlit_shape then bounds a text as HarfBuzz 12, by 256 times its length, or 65536
                                        if that is more; a hook that is called by itself bounds it by 1073741823, which stands
                                        for no length, too. */
} sengadlit_buffer_properties_t;

typedef struct sengadlit_buffer_t sengadlit_buffer_t;

/* An empty buffer: no script, no direction, monotone graphemes, no flags, no max_length, no context, state 0. Null where memory
   is refused. */
sengadlit_buffer_t *sengadlit_buffer_create(void);
/* `buffer` may be null. */
void sengadlit_buffer_destroy(sengadlit_buffer_t *buffer);

/* Makes the buffer ready for another text, as hb_buffer_clear_contents: glyphs, positions, contexts and the state go, script
   and direction become those of a new buffer; cluster_level, flags and max_length stay, and so does memory. Without it a state
   stays as the text before left it: after one with a broken syllable, reorderings look for a dotted circle in each text.
   `buffer` may be null. */
void sengadlit_buffer_clear_contents(sengadlit_buffer_t *buffer);
/* The same, and all properties become those of a new buffer. */
void sengadlit_buffer_reset(sengadlit_buffer_t *buffer);

/* Gives the text this length and returns its glyphs: those that were there stay as they are, new ones are all zero, and
   there are no positions. The pointer holds until the buffer is passed to another function, sengadlit_buffer_get_glyph_infos,
   _get_glyph_positions, _get_error, _get_state and _set_state apart. It isn't null where the length is 0. Null where memory is
   refused, or `buffer` is null. */
sengadlit_glyph_info_t *sengadlit_buffer_set_length(sengadlit_buffer_t *buffer, unsigned int length);
/* The glyphs, for which the same holds, and through `length`, which may be null, how many there are. */
sengadlit_glyph_info_t *sengadlit_buffer_get_glyph_infos(sengadlit_buffer_t *buffer, unsigned int *length);
/* The glyphs, or the positions if there are any, to be read alone; null if there are none. `length`, which may be null, gets how
   many there are. Both pointers hold until the text is changed or the buffer passed to a call that may change it; these
   two calls don't. */
const sengadlit_glyph_info_t *sengadlit_buffer_read_glyphs(sengadlit_buffer_t *buffer, unsigned int *length);
const sengadlit_glyph_position_t *sengadlit_buffer_read_positions(sengadlit_buffer_t *buffer, unsigned int *length);
/* How many glyphs there are; 0 for null. */
unsigned int sengadlit_buffer_get_length(sengadlit_buffer_t *buffer);
/* The positions, one per glyph, which the first call makes, all zero. The pointer holds as long as a pointer to the glyphs, and
   neither of these functions ends the other's. The positions stay until sengadlit_buffer_set_length; while they are there,
   sengadlit_postprocess_glyphs is the only hook that takes the buffer. */
sengadlit_glyph_position_t *sengadlit_buffer_get_glyph_positions(sengadlit_buffer_t *buffer, unsigned int *length);

/* As hb_buffer_content_type_t: what the glyphs of a buffer are, as far as it knows. sengadlit_buffer_add_utf8 and its siblings
   make it UNICODE, and the calls that shape whole texts GLYPHS; an empty text, and an array that is lent, have INVALID. The calls
   that take characters reject GLYPHS: sengadlit_buffer_add_utf8, sengadlit_substitute_text, sengadlit_shape,
   sengadlit_shape_buffer and sengadlit_buffer_guess_properties. Hooks read nothing of it, and set nothing. */
typedef enum sengadlit_buffer_content_type_t {
    SENGADLIT_BUFFER_CONTENT_TYPE_INVALID = 0,
    SENGADLIT_BUFFER_CONTENT_TYPE_UNICODE = 1,
    SENGADLIT_BUFFER_CONTENT_TYPE_GLYPHS = 2,
    SENGADLIT_BUFFER_CONTENT_TYPE_MAX_VALUE = 0x7FFFFFFF
} sengadlit_buffer_content_type_t;

/* INVALID for a null buffer. */
sengadlit_buffer_content_type_t sengadlit_buffer_get_content_type(sengadlit_buffer_t *buffer);
/* For who writes glyphs or characters in place. ARGUMENT: CONTENT; and for a null buffer. */
sengadlit_status_t sengadlit_buffer_set_content_type(sengadlit_buffer_t *buffer, sengadlit_buffer_content_type_t content_type);
/* Whether the text is one that sengadlit_shape, sengadlit_shape_buffer or sengadlit_shape_utf8 and its siblings have shaped, with
   nothing left undone except what a font's lookups have no operations or no room for. 0 once the text gets another length or
   content type, and for null. */
sengadlit_bool_t sengadlit_buffer_is_complete(sengadlit_buffer_t *buffer);
/* Whether it is, and no lookup of the font lacked operations, of which a text has 4096 for each character and 65536 at least, or
   room for glyphs that it adds. Only a hostile font, or a max_length, makes it 0 for a complete text. What sengadlit_reshape_utf8
   and its siblings leave as it was counts as it did. */
sengadlit_bool_t sengadlit_buffer_has_all_lookups(sengadlit_buffer_t *buffer);

/* Adds the glyphs of another buffer from place `start` to before `end`, with their positions, as hb_buffer_append: script and
   direction that aren't set become the other's, and of characters what stands around them there becomes the context, before the
   text if it was empty. `source` stays as it is. ARGUMENT: RANGE; TEXT, a null source; CONTENT and POSITIONS, where neither
   text is empty and only one has characters, or positions; and for a null buffer. IN_CALL: also where both are one. MEMORY.
   TOO_LONG: more than UINT32_MAX glyphs. */
sengadlit_status_t sengadlit_buffer_append(sengadlit_buffer_t *buffer, sengadlit_buffer_t *source, unsigned int start,
                                           unsigned int end);
/* Turns the glyphs round, with their positions, as hb_buffer_reverse; those from `start` to before `end`, as
   hb_buffer_reverse_range; or the order of clusters, but not of the glyphs in each, as hb_buffer_reverse_clusters. ARGUMENT:
   RANGE; and for a null buffer. */
sengadlit_status_t sengadlit_buffer_reverse(sengadlit_buffer_t *buffer);
sengadlit_status_t sengadlit_buffer_reverse_range(sengadlit_buffer_t *buffer, unsigned int start, unsigned int end);
sengadlit_status_t sengadlit_buffer_reverse_clusters(sengadlit_buffer_t *buffer);

/* ---- Glyphs in an array of the caller's ---- */

/* Makes room in the array that a buffer is lent for at least `wanted` glyphs, as realloc does: those that it has stay, and where
   the array moves its old place is gone. Returns its place and sets `allocated`, which is the room that it had, to the room that
   it has. Where memory is refused, it returns null, or the place of an array with less room than wanted; one without room
   for the text itself counts as null, and the text stands where it was. Texts grow by a few glyphs at a time, so that more room
   than is wanted is well spent. */
typedef sengadlit_glyph_info_t *(*sengadlit_grow_func_t)(void *user_data, sengadlit_glyph_info_t *glyphs, unsigned int wanted,
                                                         unsigned int *allocated);
/* Sets what makes room in the arrays that the buffer is lent from now on; it stays until it is set again. It runs within calls,
   as every callback. Null, as in a new buffer: arrays don't grow. ARGUMENT: GLYPHS, and for a null buffer. */
sengadlit_status_t sengadlit_buffer_set_grow_func(sengadlit_buffer_t *buffer, sengadlit_grow_func_t grow, void *user_data);
/* That function, or null, and through `user_data`, which may be null, what it is given. */
sengadlit_grow_func_t sengadlit_buffer_get_grow_func(sengadlit_buffer_t *buffer, void **user_data);

/* Lends an array to the buffer, in the place of glyphs of its own: the first `length` of its `allocated` glyphs are the text, and
   nothing is copied. All calls work in the array until it is given back: they read and write it there, and
   sengadlit_buffer_get_glyph_infos returns its place. Between calls it may be written, and mustn't move. A text, its positions
   and memory for its glyphs that the buffer had are gone; properties, contexts and the state stay. There is room then for all that
   reorderings take, so that only what makes the text longer, and spans, may be refused MEMORY.
   - A text that outgrows the array moves into a longer one by the function of sengadlit_buffer_set_grow_func. Where that refuses,
     the call returns MEMORY, and the text in the array and its length are as they were. Without a function the text goes on in a
     list of the buffer's, and after a call in which it fits the array again it is in that.
   - Another array may be lent without giving this one back, which is the caller's then, with what the last call left.
   - What stands behind the text in the array is anything; nothing behind `allocated` glyphs is touched.
   - After SENGADLIT_INTERNAL the array is lent still, with a text of length 0, and what stands in it is anything.
   - sengadlit_buffer_destroy gives nothing back: the array is the caller's, with what the last call left.
   `glyphs` may be null if `allocated` is 0; null is given back then, if the text stays empty. ARGUMENT: GLYPHS, and for a null
   buffer; MEMORY. With either the buffer keeps the text that it had, and an array that was lent before is lent still. */
sengadlit_status_t sengadlit_buffer_lend(sengadlit_buffer_t *buffer, sengadlit_glyph_info_t *glyphs, unsigned int length,
                                         unsigned int allocated);
/* Ends that: returns the array, in the place to which it may have moved, and writes the length of the text and the room of the
   array, which the buffer knows no more. The buffer has no text then, and no positions. A text that was too long for an array
   that doesn't grow stands in memory of the buffer's: a pointer to it is returned, which holds until the buffer is passed to
   another function, sengadlit_buffer_get_error, _get_state and _set_state apart; `allocated` is 0, and what stands in the array
   is anything. Both pointers may be null. Null is returned for ARGUMENT: GLYPHS, and for a null buffer; IN_CALL. */
sengadlit_glyph_info_t *sengadlit_buffer_give_back(sengadlit_buffer_t *buffer, unsigned int *length, unsigned int *allocated);

/* Adds characters to the text: those of the item of `item_length` units (bytes, 16 or 32 bits) that begins at `item_offset`
   in `text`, which has `text_length` units. With -1 as `text_length` the text ends before its first zero, and with -1 as
   `item_length` the item ends where the text does. As hb_buffer_add_utf8, _utf16 and _utf32:
   - The cluster of a character is the place of its first unit in `text`.
   - Each unit that doesn't begin a well-formed sequence within the item is U+FFFD, in a cluster of its own: a surrogate
     alone, a number beyond Unicode, each byte of a sequence that is cut short, too long or a surrogate's.
   - The characters after the item, at most five, become the context after the text. Those before it become the context
     before the text if the buffer was empty, and if there are any.
   `unicode_props` has the general category, the modified combining class, IGNORABLE and, for marks (Mn, Mc, Me),
   CONTINUATION of Unicode 17.0; what else continues a grapheme, as in emoji and flags, is the caller's, and so is
   the high byte of what is no mark. All else is zero, and there are no positions. `text` may be null if its length is 0.
   max_length doesn't limit this call, as it doesn't limit sengadlit_buffer_set_length.
   ARGUMENT: TEXT; RANGE: a length below -1, or an item that doesn't lie in the text; CONTENT: the buffer has glyphs; and for a
   null buffer. MEMORY. TOO_LONG: the buffer would have, or the text has, more than UINT32_MAX units. */
sengadlit_status_t sengadlit_buffer_add_utf8(sengadlit_buffer_t *buffer, const char *text, int text_length,
                                             unsigned int item_offset, int item_length);
sengadlit_status_t sengadlit_buffer_add_utf16(sengadlit_buffer_t *buffer, const uint16_t *text, int text_length,
                                              unsigned int item_offset, int item_length);
sengadlit_status_t sengadlit_buffer_add_utf32(sengadlit_buffer_t *buffer, const uint32_t *text, int text_length,
                                              unsigned int item_offset, int item_length);

/* Adds a character, of a cluster that the caller chooses, as hb_buffer_add. ARGUMENT: GLYPH_ID, not a scalar value; CONTENT: the
   buffer has glyphs; and for a null buffer. MEMORY, TOO_LONG as above. */
sengadlit_status_t sengadlit_buffer_add(sengadlit_buffer_t *buffer, uint32_t unicode, uint32_t cluster);

/* ARGUMENT: PROPERTIES, DIRECTION, CLUSTER_LEVEL, and for a null buffer. */
sengadlit_status_t sengadlit_buffer_set_properties(sengadlit_buffer_t *buffer, const sengadlit_buffer_properties_t *properties);
/* Writes all but the size: what isn't set is 0. ARGUMENT: PROPERTIES, and for a null buffer. */
sengadlit_status_t sengadlit_buffer_get_properties(sengadlit_buffer_t *buffer, sengadlit_buffer_properties_t *properties);
/* Sets the script, where none is set, to that of the first character that has one of its own, and then the direction, where
   none is set, to that of the script, or LTR: as hb_buffer_guess_segment_properties, but for its language. ARGUMENT: CONTENT,
   and for a null buffer. */
sengadlit_status_t sengadlit_buffer_guess_properties(sengadlit_buffer_t *buffer);
/* The characters before the text and after it, the nearest first, of which five count on each side. Null if the length is
   0. Read where letters join. ARGUMENT: CONTEXT, where `index` counts on from those before to those after; and for a null
   buffer. */
sengadlit_status_t sengadlit_buffer_set_context(sengadlit_buffer_t *buffer, const uint32_t *before, unsigned int before_length,
                                                const uint32_t *after, unsigned int after_length);
/* How many characters of a context count on each side. */
#define SENGADLIT_CONTEXT_LENGTH 5
/* Writes those characters, with zeros behind them, and how many they are; each pointer may be null. ARGUMENT: a null buffer. */
sengadlit_status_t sengadlit_buffer_get_context(sengadlit_buffer_t *buffer, uint32_t before[SENGADLIT_CONTEXT_LENGTH],
                                                unsigned int *before_length, uint32_t after[SENGADLIT_CONTEXT_LENGTH],
                                                unsigned int *after_length);

/* What one hook leaves for a later one, as HarfBuzz's scratch flags. It stays until it is set or the buffer cleared. */
enum {
    SENGADLIT_BUFFER_STATE_HAS_BROKEN_SYLLABLE = 0x01, /* Set by the set-ups, read by the reorderings; none clears it. */
    SENGADLIT_BUFFER_STATE_HAS_STCH = 0x02             /* Set by RECORD_STCH, read by postprocess_glyphs. */
};
/* Other bits are ignored, and so is a null buffer. */
void sengadlit_buffer_set_state(sengadlit_buffer_t *buffer, unsigned int state);
/* 0 for a null buffer. */
unsigned int sengadlit_buffer_get_state(const sengadlit_buffer_t *buffer);

/* Why the last call on this buffer failed that did fail: as with errno, a call that succeeds leaves it alone. At first, and
   where `buffer` is null, it is all zero. `error` isn't written if it is null. */
void sengadlit_buffer_get_error(const sengadlit_buffer_t *buffer, sengadlit_error_t *error);

/* ---- Hooks, in the order of a pipeline ---- */

/* All of them: ARGUMENT for PLAN and POSITIONS besides what each lists, and for a null buffer. An argument is rejected before
   ABSENT is returned. TOO_LONG: the text is longer than max_length already. MEMORY only where
   listed. IN_CALL.

   The list says for each shaper, or pause, which fields of a glyph are read -> written; (joins) stands for scripts whose
   letters join (sengadlit_plan_data_t), `general_category` and `combining_class` for these parts of `unicode_props`, which
   itself stands for the bits between them. Besides, `cluster` and the glyph flags of `mask` are read and written where glyphs
   merge or move, or text may not be broken any more. Bits of features are or-ed to those of `mask`, but that
   INITIAL_REORDERING takes `half` from consonants before a ZWNJ, and SETUP_SYLLABLES_USE replaces isol, init, medi and fina
   where letters don't join.

   preprocess_text THAI: glyph_id general_category -> glyph_id general_category combining_class unicode_props
   preprocess_text HANGUL: glyph_id -> glyph_id auxiliary
   preprocess_text INDIC: - -> -
   preprocess_text UNIVERSAL: - -> -
   reorder_marks ARABIC: glyph_id general_category combining_class -> combining_class
   reorder_marks HEBREW: general_category combining_class -> -
   setup_masks ARABIC: glyph_id general_category -> auxiliary mask
   setup_masks HANGUL: auxiliary -> mask
   setup_masks INDIC: glyph_id -> category auxiliary
   setup_masks KHMER: glyph_id -> category
   setup_masks MYANMAR: glyph_id -> category
   setup_masks UNIVERSAL: glyph_id -> category
   setup_masks UNIVERSAL(joins): glyph_id general_category -> category auxiliary mask
   spans INDIC: category -> -
   spans KHMER: category -> -
   spans MYANMAR: category -> -
   spans UNIVERSAL: category general_category -> -
   run_pause SETUP_SYLLABLES_INDIC: - -> syllable
   run_pause SETUP_SYLLABLES_KHMER: - -> syllable
   run_pause SETUP_SYLLABLES_MYANMAR: - -> syllable
   run_pause SETUP_SYLLABLES_USE: category -> syllable mask
   run_pause SETUP_SYLLABLES_USE(joins): category -> syllable mask
   run_pause INITIAL_REORDERING: glyph_id syllable category auxiliary glyph_props -> mask auxiliary
   run_pause REORDER_KHMER: syllable category -> mask
   run_pause REORDER_MYANMAR: syllable category glyph_props -> auxiliary
   run_pause REORDER_USE: syllable category glyph_props lig_props -> -
   run_pause FINAL_REORDERING: glyph_id mask syllable category auxiliary general_category glyph_props
       -> mask category auxiliary glyph_props
   run_pause RECORD_STCH: glyph_props lig_props -> auxiliary
   run_pause RECORD_RPHF: mask syllable glyph_props -> category
   run_pause RECORD_PREF: syllable glyph_props -> category
   run_pause SYLLABIC_CLEAR_VAR: - -> syllable
   run_pause CLEAR_SUBSTITUTION_FLAGS: glyph_props -> glyph_props
   run_pause ARABIC_FALLBACK_SHAPE: - -> -
   postprocess_glyphs ARABIC: glyph_id auxiliary glyph_props general_category unicode_props -> -
*/

/* Thai: SARA AM is taken apart, and of `unicode_props` SENGADLIT_UNICODE_PROPS_CONTINUATION is written; and for a plan of the
   script Thai without found_script marks take the forms of the Private Use Area, which calls nominal_glyph. Hangul: jamo are
   composed and syllables decomposed as the font has them, and tones reordered, which calls nominal_glyph and glyph_h_advance.
   Both add, remove and move glyphs. Indic and universal: nothing changes, and `vowel_constraints`, which may be null, is set to
   1: the caller has to part vowels from signs with which they would look like another vowel, by dotted circles unless
   DO_NOT_INSERT_DOTTED_CIRCLE is set, as hb_preprocess_text_vowel_constraints. It is set to 0 otherwise, unless the call
   fails. `font` may be null where it isn't called. ARGUMENT: FONT. TOO_LONG, MEMORY. */
sengadlit_status_t sengadlit_preprocess_text(const sengadlit_plan_t *plan, const sengadlit_font_t *font,
                                             sengadlit_buffer_t *buffer, sengadlit_bool_t *vowel_constraints);

/* Whether the shaper composes two characters, or decomposes one. DONE: compose has written the character to `ab`, decompose
   the two to `a` and `b`, of which `b` is 0 where the character is another one alone. NOT_FOUND, or ABSENT, where Unicode's own
   composition holds: nothing was written. Calls compose (and for Indic, Khmer and universal general_category), or decompose.
   `tables` may be null.
   `error` may be null; it is written where anything else is returned. ARGUMENT: PLAN, TABLES, RESULT, or GLYPH_ID: a character
   isn't a scalar value. */
sengadlit_status_t sengadlit_decompose(const sengadlit_plan_t *plan, const sengadlit_tables_t *tables, uint32_t ab,
                                       uint32_t *a, uint32_t *b, sengadlit_error_t *error);
sengadlit_status_t sengadlit_compose(const sengadlit_plan_t *plan, const sengadlit_tables_t *tables, uint32_t a, uint32_t b,
                                     uint32_t *ab, sengadlit_error_t *error);

/* Reorders the marks from place `start` to before `end` (Arabic, Hebrew). To be called in normalization, when characters are
   decomposed and before they are composed again, for each run of characters whose combining class isn't 0, after they
   were sorted by it; HarfBuzz leaves runs of more than 32 as they are. ARGUMENT: RANGE, which for Arabic is of at most 32
   places. */
sengadlit_status_t sengadlit_reorder_marks(const sengadlit_plan_t *plan, sengadlit_buffer_t *buffer, unsigned int start,
                                           unsigned int end);

/* Sets categories, Indic's positions (auxiliary), joining forms (auxiliary) and the masks of features that some glyphs alone
   take. Indic, Khmer and Myanmar call indic_categories, universal use_category. Arabic, and universal where letters join: reads
   the properties and the context, too; calls joining_type, and general_category for the context. `tables` may be null.
   ARGUMENT: TABLES; GLYPH_ID: where letters join, not a scalar value. */
sengadlit_status_t sengadlit_setup_masks(const sengadlit_plan_t *plan, const sengadlit_tables_t *tables,
                                         sengadlit_buffer_t *buffer);

/* The kinds of syllables, as the machines of HarfBuzz 6.0.0 and 12.3.2 number them but for Myanmar's: its number of a kind
   becomes ours by SENGADLIT_MYANMAR_SYLLABLE_FROM_HARFBUZZ, since its machine has no punctuation clusters any more. */
enum {
    SENGADLIT_INDIC_SYLLABLE_CONSONANT = 0,
    SENGADLIT_INDIC_SYLLABLE_VOWEL = 1,
    SENGADLIT_INDIC_SYLLABLE_STANDALONE = 2,
    SENGADLIT_INDIC_SYLLABLE_SYMBOL = 3,
    SENGADLIT_INDIC_SYLLABLE_BROKEN = 4,
    SENGADLIT_INDIC_SYLLABLE_NON_INDIC = 5
};
enum {
    SENGADLIT_KHMER_SYLLABLE_CONSONANT = 0,
    SENGADLIT_KHMER_SYLLABLE_BROKEN = 1,
    SENGADLIT_KHMER_SYLLABLE_NON_KHMER = 2
};
enum {
    SENGADLIT_MYANMAR_SYLLABLE_CONSONANT = 0,
    SENGADLIT_MYANMAR_SYLLABLE_PUNCTUATION = 1,
    SENGADLIT_MYANMAR_SYLLABLE_BROKEN = 2,
    SENGADLIT_MYANMAR_SYLLABLE_NON_MYANMAR = 3
};
#define SENGADLIT_MYANMAR_SYLLABLE_FROM_HARFBUZZ(kind) ((uint8_t)((kind) == 0 ? 0 : (kind) + 1))
enum {
    SENGADLIT_USE_SYLLABLE_VIRAMA_TERMINATED = 0,
    SENGADLIT_USE_SYLLABLE_SAKOT_TERMINATED = 1,
    SENGADLIT_USE_SYLLABLE_STANDARD = 2,
    SENGADLIT_USE_SYLLABLE_NUMBER_JOINER_TERMINATED = 3,
    SENGADLIT_USE_SYLLABLE_NUMERAL = 4,
    SENGADLIT_USE_SYLLABLE_SYMBOL = 5,
    SENGADLIT_USE_SYLLABLE_HIEROGLYPH = 6,
    SENGADLIT_USE_SYLLABLE_BROKEN = 7,
    SENGADLIT_USE_SYLLABLE_NON_CLUSTER = 8
};

/* A syllable, as sengadlit_spans or the caller's own machine found it. */
typedef struct sengadlit_span_t {
    size_t length;                   /* In glyphs; not 0. */
    uint8_t kind;                    /* One of the kinds above; up to 15 are taken by the set-ups. */
} sengadlit_span_t;

/* The syllables of the text by the grammar of Indic, Khmer, Myanmar or universal, for the pause that sets them up: in order,
   they cover the text; there are none for other shapers. `length` gets their number, unless it is null. They are found by
   category, as sengadlit_setup_masks writes it. The pointer isn't null where there are none, and holds until this function is
   called with the buffer, or the buffer is destroyed. Null is returned for ARGUMENT: SHAPER, and for a null buffer; TOO_LONG;
   IN_CALL; and MEMORY, where the buffer never had so many syllables. */
const sengadlit_span_t *sengadlit_spans(sengadlit_shaper_t shaper, sengadlit_buffer_t *buffer, unsigned int *length);

/* Does what a shaper does between two stages of GSUB. A shaper has the pauses that sengadlit_collect_features and
   sengadlit_override_features add for one script or another; the call rejects all others.
   SETUP_SYLLABLES_..: reads the spans, which cover the text in its order; sets the state HAS_BROKEN_SYLLABLE if one is of the
   kind of broken ones, and doesn't clear it. SPANS_DONT_COVER.
   INITIAL_REORDERING, REORDER_..: moves glyphs, and adds dotted circles where the state has HAS_BROKEN_SYLLABLE and the
   properties allow it. Calls nominal_glyph, and INITIAL_REORDERING would_substitute too, if the plan has a lookup. Of
   `glyph_props` REORDER_MYANMAR reads SENGADLIT_GLYPH_PROPS_LIGATED alone. MEMORY and TOO_LONG, of circles; UNKNOWN_SYLLABLE,
   but for REORDER_USE.
   FINAL_REORDERING: moves glyphs. Calls nominal_glyph.
   RECORD_STCH: sets the state HAS_STCH. SYLLABIC_CLEAR_VAR: writes 0. CLEAR_SUBSTITUTION_FLAGS: of `glyph_props`
   SENGADLIT_GLYPH_PROPS_SUBSTITUTED is cleared.
   `font` may be null where it isn't called, `spans` for all but the set-ups of a text that isn't empty. `circles`, which may
   be null, is set to whether dotted circles were wanted and the font has one, unless the call fails.
   ARGUMENT: PAUSE, FONT, SPANS; GLYPH_ID (INITIAL_REORDERING): above 65535. */
sengadlit_status_t sengadlit_run_pause(const sengadlit_plan_t *plan, sengadlit_pause_t pause, const sengadlit_font_t *font,
                                       const sengadlit_span_t *spans, unsigned int spans_length, sengadlit_buffer_t *buffer,
                                       sengadlit_bool_t *circles);

/* Runs a pause SETUP_SYLLABLES_.. on the syllables of sengadlit_spans, which it finds in the same pass and without memory.
   ABSENT (and nothing changes): another pause, which sengadlit_run_pause runs. ARGUMENT: PAUSE. */
sengadlit_status_t sengadlit_setup_syllables_found(const sengadlit_plan_t *plan, sengadlit_pause_t pause,
                                                   sengadlit_buffer_t *buffer);

/* The same on the syllables that stand in the text already: glyphs beside each other with the same `syllable` are one, of the
   kind in its low four bits, as HarfBuzz's machines write them (but for Myanmar's kinds). These bytes stay. */
sengadlit_status_t sengadlit_setup_syllables_written(const sengadlit_plan_t *plan, sengadlit_pause_t pause,
                                                     sengadlit_buffer_t *buffer);

/* After positioning: where the state has HAS_STCH, stretches marks over the words beside them (Arabic). Wants the glyphs in
   visual order, from left to right, as HarfBuzz calls it, which has reversed a text of direction RTL by then: in the order of
   the text a mark stands before its word, and nothing is stretched. Reads all of the positions; adds glyphs with their
   positions, writes x_advance and x_offset. Calls glyph_h_advance. ARGUMENT: FONT; GLYPH_ID: above 65535; POSITIONS: there
   are none for a text that isn't empty. STRETCH_OVERFLOW, TOO_LONG, MEMORY. */
sengadlit_status_t sengadlit_postprocess_glyphs(const sengadlit_plan_t *plan, const sengadlit_font_t *font,
                                                sengadlit_buffer_t *buffer);

/* ---- From a text to its glyphs ---- */

/* A plan for whole texts, and the calls that take a text by it from characters to positioned glyphs. Unicode's tables are the
   library's, and so is normalization; the font's lookups are the caller's. */

/* A feature of GSUB or GPOS, and its lookups by their numbers in the table. */
typedef struct sengadlit_table_feature_t {
    sengadlit_tag_t tag;
    unsigned int lookups_length;
    const uint16_t *lookups;         /* May be null if the length is 0, as the lists below. */
} sengadlit_table_feature_t;

/* What GSUB or GPOS has in the script and language that the caller chose for the text. */
typedef struct sengadlit_layout_table_t {
    sengadlit_bool_t has_table;      /* Whether the font has the table; else all is 0. */
    sengadlit_tag_t chosen_script;   /* The tag of that script, or 0. */
    sengadlit_bool_t found_script;   /* Whether it is one of the tags of the text's script, and no default as DFLT is. */
    unsigned int features_length;
    const sengadlit_table_feature_t *features; /* Of two with one tag the first counts. */
    const sengadlit_table_feature_t *anywhere; /* Features that may be taken from any script: `vert`, for vertical text. */
    unsigned int anywhere_length;
    sengadlit_table_feature_t required; /* The feature that the language requires; tag 0 if there is none. */
} sengadlit_layout_table_t;

/* A feature that the user requests, as hb_feature_t: for glyphs of the clusters from `start` to before `end`, and for the whole
   text by 0 and UINT32_MAX. */
typedef struct sengadlit_user_feature_t {
    sengadlit_tag_t tag;
    uint32_t value;
    uint32_t start;
    uint32_t end;
} sengadlit_user_feature_t;

/* What decides how the texts of one script, direction and font are shaped. */
typedef struct sengadlit_shape_plan_input_t {
    size_t size;                     /* sizeof. */
    sengadlit_tag_t script;          /* Of the text; 0 if it isn't known. */
    sengadlit_direction_t direction;
    sengadlit_layout_table_t gsub;
    sengadlit_layout_table_t gpos;
    const sengadlit_user_feature_t *user_features;
    unsigned int user_features_length;
    unsigned int units_per_em;       /* Of the font, at most 65535; 0 stands for 1000. For spaces that the font lacks. */
    sengadlit_bool_t centres_stretch; /* These four as in sengadlit_plan_input_t. */
    sengadlit_bool_t sound_breaks;
    sengadlit_bool_t searches_medials;
    uint32_t reserved;               /* 0. */
    sengadlit_bool_t new_spec_zero_context;
} sengadlit_shape_plan_input_t;

typedef struct sengadlit_shape_plan_t sengadlit_shape_plan_t;

/* Makes a plan: the shaper by script, direction and chosen script; its features, those of every script and the user's; their
   bits of `mask`; and the stages of lookups with the pauses between them. All is copied. A plan doesn't change: threads may
   share it. `error` may be null; it is written where null is returned: MEMORY, INTERNAL, or ARGUMENT: INPUT (null, or
   `units_per_em` above 65535), DIRECTION, FEATURES (a list is null), LOOKUPS (that of feature `index` is, counted through the
   lists of GSUB in the order of the struct and those of GPOS). */
sengadlit_shape_plan_t *sengadlit_shape_plan_create(const sengadlit_shape_plan_input_t *input, sengadlit_error_t *error);
/* Frees the plan, which no call may use any more. `plan` may be null. */
void sengadlit_shape_plan_destroy(sengadlit_shape_plan_t *plan);

/* A lookup of a stage, and how it applies, as hb_ot_map_t::lookup_map_t. */
typedef struct sengadlit_lookup_t {
    uint32_t index;                  /* Its number in the table. */
    uint32_t mask;                   /* It applies to glyphs whose mask has one of these bits. */
    sengadlit_bool_t auto_zwnj;      /* Whether matching passes over zero width non-joiners, */
    sengadlit_bool_t auto_zwj;       /* and over zero width joiners. */
    sengadlit_bool_t random;         /* Whether an alternate is picked at random. */
    sengadlit_bool_t per_syllable;   /* Whether a match stays within a syllable. */
} sengadlit_lookup_t;

/* A font's lookups. The buffer that a function is given is the library's, lent for this call of the function, which may pass it
   to every function of this header; sengadlit_buffer_destroy alone does nothing to it. Its glyphs, with numbers of at most
   65535, and its positions are then the text's; what else is changed of it is lost. A function that returns 0 tells that memory
   was refused, and leaves the glyphs as they were. */
typedef struct sengadlit_lookups_funcs_t {
    size_t size;                     /* sizeof. */
    /* Writes the glyph of a character with a variation selector, as the font's cmap has it, and returns whether there is one;
       may be null if there is none. */
    sengadlit_bool_t (*variation_glyph)(void *user_data, uint32_t unicode, uint32_t selector, uint32_t *glyph);
    /* What stands in `glyph_props` before the first lookup, the glyph's class (SENGADLIT_GLYPH_PROPS_MARK and others), where
       `lig_props` is 0; may be null: 0. */
    uint16_t (*glyph_props)(void *user_data, const sengadlit_glyph_info_t *glyph);
    /* Applies a lookup of GSUB. A match is flagged by sengadlit_buffer_unsafe_to_break, clusters are merged by
       sengadlit_buffer_merge_clusters, and what happened to a glyph is noted in `glyph_props` and `lig_props`. */
    sengadlit_bool_t (*substitute)(void *user_data, const sengadlit_lookup_t *lookup, sengadlit_buffer_t *buffer);
    /* Whether a glyph is a mark, by its class; may be null: none is. */
    sengadlit_bool_t (*is_mark)(void *user_data, const sengadlit_glyph_info_t *glyph);
    /* Applies a lookup of GPOS, which keeps the length of the text and its positions (sengadlit_buffer_get_glyph_positions). */
    sengadlit_bool_t (*position)(void *user_data, const sengadlit_lookup_t *lookup, sengadlit_buffer_t *buffer);
    /* Moves what lookups of GPOS have attached to other glyphs, behind the last of them; keeps the length. May be null. */
    void (*finish_positions)(void *user_data, sengadlit_buffer_t *buffer);
    /* For vertical text, and null otherwise: the advance of a glyph, below 0 as the pen moves down; and where its origin for
       vertical text lies, seen from that for horizontal text, to the right and upwards. In font units. */
    int32_t (*glyph_v_advance)(void *user_data, uint32_t glyph);
    void (*glyph_v_origin)(void *user_data, uint32_t glyph, int32_t *x, int32_t *y);
} sengadlit_lookups_funcs_t;

typedef struct sengadlit_lookups_t {
    const sengadlit_lookups_funcs_t *funcs;
    void *user_data;
} sengadlit_lookups_t;

/* Gives the glyphs from place `start` to before `end` one cluster, as hb_buffer_t::merge_clusters, or flags them unsafe to break,
   as hb_buffer_t::unsafe_to_break. ARGUMENT: RANGE. */
sengadlit_status_t sengadlit_buffer_merge_clusters(sengadlit_buffer_t *buffer, unsigned int start, unsigned int end);
sengadlit_status_t sengadlit_buffer_unsafe_to_break(sengadlit_buffer_t *buffer, unsigned int start, unsigned int end);

/* Takes a text of characters, as sengadlit_buffer_add_utf8 adds them, to glyphs behind the last lookup of GSUB: in HarfBuzz's
   order all that comes before lookups, normalization among it, and then stage by stage the lookups and the pause behind them.
   Script and direction are the plan's, and those of the buffer's properties stay: the glyphs are in the order of the script's
   own direction, whichever that is. Calls nominal_glyph; for Hangul glyph_h_advance; for Indic would_substitute, if the plan
   has a lookup; and the functions of `lookups`, of which substitute may be null if the plan has no lookup.
   ARGUMENT: PLAN, FONT, LOOKUPS, POSITIONS; CONTENT: the buffer has glyphs; GLYPH_ID: not a scalar value; and for a null
   buffer. TOO_LONG, MEMORY, UNKNOWN_SYLLABLE. GLYPH_ID is also the argument where a lookup left glyph `index` with a number
   above 65535. */
sengadlit_status_t sengadlit_substitute_text(const sengadlit_shape_plan_t *plan, const sengadlit_font_t *font,
                                             const sengadlit_lookups_t *lookups, sengadlit_buffer_t *buffer);

/* The same, and positions: advances, the lookups of GPOS where the shaper takes the script that was chosen in it, marks and
   default ignorables without a width, stretched marks, and one set of glyph flags for each cluster. The glyphs are in the order
   in which they are drawn, and default ignorables that no lookup replaced are the font's space, or gone. The table kern, and
   marks placed without GPOS, are the caller's. Calls glyph_h_advance too, and is_mark, position and finish_positions, of which
   position may be null if the plan has no lookup of GPOS; and for vertical text glyph_v_advance and glyph_v_origin.
   STRETCH_OVERFLOW. POSITIONS is also the argument where a lookup of GPOS left another number of glyphs or positions. INTERNAL:
   also where finish_positions did so, or left a glyph with a number above 65535. */
sengadlit_status_t sengadlit_shape(const sengadlit_shape_plan_t *plan, const sengadlit_font_t *font,
                                   const sengadlit_lookups_t *lookups, sengadlit_buffer_t *buffer);

/* ---- Faces: a text and a font file in one call ---- */

/* A font file in memory, or one font of a collection: OpenType, with glyf or CFF outlines. No file is opened. Of a variable
   font it is the default instance, and tables of AAT and Graphite aren't read. A face doesn't change: threads may share it. A
   library that was built without the feature `opentype` has none of the functions from here to sengadlit_buffer_serialize, nor
   sengadlit_buffer_guess_properties. */
typedef struct sengadlit_face_t sengadlit_face_t;

/* How many fonts a file has: 1, or those of a collection; 0 where the bytes are null, or no font. */
unsigned int sengadlit_face_count(const void *data, size_t length);

/* Makes a face, with one reference, of a font by its place in a collection; else `index` is 0. The bytes must last and stay as
   they are until `destroy` is called with `user_data`: once, when the last reference goes, on that thread, or before null is
   returned. With a null `destroy` they are copied. What in a font can't be read counts as absent, whatever the bytes are.
   `error` may be null; it is written where null is returned: ARGUMENT: DATA, INDEX; MEMORY; INTERNAL. */
sengadlit_face_t *sengadlit_face_create(const void *data, size_t length, unsigned int index, void *user_data,
                                        sengadlit_destroy_func_t destroy, sengadlit_error_t *error);
/* Adds a reference and returns `face`, which may be null. Any thread that has a reference may call these two. */
sengadlit_face_t *sengadlit_face_reference(sengadlit_face_t *face);
/* Drops a reference; the last one frees the face. `face` may be null. */
void sengadlit_face_destroy(sengadlit_face_t *face);
/* Makes tables of the face's characters, classes and lookups, by which texts are shaped faster, to the same glyphs. It takes as
   long as about a hundred words (in fonts of Chinese or Korean a thousand), so it pays for a face that shapes many texts. The
   tables take 512 KiB at most, or half as much as the font's file, where that is more. Where memory is refused there are fewer.
   Any thread may call it at any time (tools that look for races don't see the atomics of Rust's standard library, and may report
   it beside a call that shapes); a second call does nothing. `face` may be null. */
void sengadlit_face_prepare(const sengadlit_face_t *face);
/* What the face was made with; null for a null face. */
void *sengadlit_face_get_user_data(const sengadlit_face_t *face);

/* How many font units an em has, and how many glyphs there are; 0 for a null face, as below. */
unsigned int sengadlit_face_get_units_per_em(const sengadlit_face_t *face);
unsigned int sengadlit_face_get_glyph_count(const sengadlit_face_t *face);
/* Writes the glyph of a character, or of one with a variation selector behind it, unless `glyph` is null, and returns whether
   there is one. */
sengadlit_bool_t sengadlit_face_get_nominal_glyph(const sengadlit_face_t *face, uint32_t unicode, uint32_t *glyph);
sengadlit_bool_t sengadlit_face_get_variation_glyph(const sengadlit_face_t *face, uint32_t unicode, uint32_t selector,
                                                    uint32_t *glyph);
/* In font units. */
int32_t sengadlit_face_get_glyph_h_advance(const sengadlit_face_t *face, uint32_t glyph);
/* Whether the font has axes, of which the default instance is taken. */
sengadlit_bool_t sengadlit_face_is_variable(const sengadlit_face_t *face);
/* As hb_glyph_extents_t: the box around a glyph, in font units, from its top left corner; the height is mostly negative. */
typedef struct sengadlit_glyph_extents_t {
    int32_t x_bearing;
    int32_t y_bearing;
    int32_t width;
    int32_t height;
} sengadlit_glyph_extents_t;
/* Writes the box of a glyph of the table glyf, unless `extents` is null, and returns whether there is one. */
sengadlit_bool_t sengadlit_face_get_glyph_extents(const sengadlit_face_t *face, uint32_t glyph,
                                                  sengadlit_glyph_extents_t *extents);
/* Writes the name that the table post has for a glyph, as much of it as has room in `size` bytes with a zero behind it, and
   returns whether there is one. `name` may be null if `size` is 0. */
sengadlit_bool_t sengadlit_face_get_glyph_name(const sengadlit_face_t *face, uint32_t glyph, char *name, unsigned int size);
/* The face as a font for the hooks, which lasts as long as the face; null for null. Its has_feature asks GSUB and GPOS in the
   script that they have for texts of no script. */
const sengadlit_font_t *sengadlit_face_get_font(const sengadlit_face_t *face);

/* Plans of faces, which are made once for each face, script, direction, language, features and choices below: the 64 that were
   used last. One thread uses a cache at a time, and a callback may use that of its call, but not destroy it. A plan of a face
   that is gone is never taken for another's, and keeps no bytes of it. Null where memory is refused. */
typedef struct sengadlit_plan_cache_t sengadlit_plan_cache_t;
sengadlit_plan_cache_t *sengadlit_plan_cache_create(void);
/* `cache` may be null, here and in the next two. */
void sengadlit_plan_cache_destroy(sengadlit_plan_cache_t *cache);
/* Drops all plans. */
void sengadlit_plan_cache_clear(sengadlit_plan_cache_t *cache);
/* How many plans it has. */
unsigned int sengadlit_plan_cache_get_length(const sengadlit_plan_cache_t *cache);

/* What is chosen for a text. Fields of zeros are as HarfBuzz shapes. */
typedef struct sengadlit_shape_options_t {
    size_t size;                     /* sizeof. */
    sengadlit_tag_t script;          /* 0 and INVALID: sengadlit_shape_buffer takes those of the buffer's properties, if they */
    sengadlit_direction_t direction; /* are set; otherwise the characters decide. */
    const char *language;            /* As hb_language_from_string takes it, "sr-Latn" or "sr_RS.UTF-8": a tag of BCP 47 up to the
                                        first character that no tag has, or to a zero. Some fonts have glyphs of their own for
                                        a language. Null: none. */
    const sengadlit_user_feature_t *features; /* May be null if the length is 0. */
    unsigned int features_length;
    sengadlit_bool_t sound_breaks;   /* As in sengadlit_plan_input_t. */
    sengadlit_bool_t skips_medials;  /* Whether Indic looks for a base among those consonants alone that aren't medial, as
                                        rustybuzz does. */
    sengadlit_bool_t normalizes_always; /* Whether letters compose in a text without marks too, so that a letter is the same in a
                                        short text and in a long one. */
    uint32_t invisible_glyph;        /* For characters that aren't drawn; 0: the font's space, or nothing. These three are at most
                                        65535. */
    uint32_t not_found_glyph;        /* For characters that the font lacks. */
    uint32_t not_found_selector_glyph; /* For variation selectors that select nothing; 0: they aren't drawn. */
    const sengadlit_font_t *font;    /* Its nominal_glyph and glyph_h_advance, where there are, in the place of the face's: widths
                                        by hinting, or another cmap. In font units, so that a hinted width is rounded to one: round
                                        each advance to pixels again when you draw. Null: the face's own. */
    sengadlit_plan_cache_t *cache;   /* Null: a plan is made for the call. */
    sengadlit_bool_t old_spec_zero_context; /* Whether Indic asks the font for rules without context in fonts of the older
                                        specification, as rustybuzz does. */
} sengadlit_shape_options_t;

/* Reads a feature as hb_feature_from_string, `kern`, `-liga`, `aalt[3:5]=2`, of a text of `length` bytes, or with -1 of one that
   ends with a zero; returns whether it is one, and writes it unless `feature` is null. */
sengadlit_bool_t sengadlit_user_feature_from_string(const char *string, int length, sengadlit_user_feature_t *feature);
/* Writes a feature as that reads it, as much of it as has room in `size` bytes with a zero behind it; 128 are enough. */
void sengadlit_user_feature_to_string(const sengadlit_user_feature_t *feature, char *string, unsigned int size);

/* Shapes a text, which replaces that of the buffer: `text_length` units, or with -1 those before the first zero, decoded as
   sengadlit_buffer_add_utf8 and its siblings do. The glyphs have positions and are in the order in which they are drawn. Script
   and direction of the buffer become those by which the text was shaped; its cluster_level, flags and max_length count.
   `options` may be null. A plan that is used for more than one text is worth a cache.
   ATOMIC: unless DONE or INTERNAL is returned, the buffer has the text that it had. ARGUMENT: FACE; TEXT, RANGE, of text and
   length; OPTIONS; DIRECTION, LANGUAGE, FEATURES, FONT, of the options; and for a null buffer. MEMORY. TOO_LONG: what isn't a
   lookup makes the text longer than max_length; or, where that is 0, a stretched mark makes it longer than 256 times its length
   and 65536 glyphs; or it has more than UINT32_MAX units. STRETCH_OVERFLOW. INTERNAL: only where `font` changes its results. */
sengadlit_status_t sengadlit_shape_utf8(const sengadlit_face_t *face, const char *text, int text_length,
                                        const sengadlit_shape_options_t *options, sengadlit_buffer_t *buffer);
sengadlit_status_t sengadlit_shape_utf16(const sengadlit_face_t *face, const uint16_t *text, int text_length,
                                         const sengadlit_shape_options_t *options, sengadlit_buffer_t *buffer);
sengadlit_status_t sengadlit_shape_utf32(const sengadlit_face_t *face, const uint32_t *text, int text_length,
                                         const sengadlit_shape_options_t *options, sengadlit_buffer_t *buffer);
/* The same of the characters that the buffer has, with its context: for an item of a longer text, or clusters of one's own.
   ARGUMENT as above, and POSITIONS; CONTENT: the buffer has glyphs; GLYPH_ID: not a scalar value. */
sengadlit_status_t sengadlit_shape_buffer(const sengadlit_face_t *face, const sengadlit_shape_options_t *options,
                                          sengadlit_buffer_t *buffer);

/* Shapes again what an edit changes of a text that sengadlit_shape_utf8, _utf16, _utf32 or _shape_buffer has shaped into the
   buffer by this face and these options: `text` is the text as it is now, the units from `start` to before `new_end` stand in
   the place of those from `start` to before `old_end` of the text as it was, and clusters are places in it. The glyphs are then
   those of the whole text, with the flags; `again_start` and `again_end`, which may be null, get between which units it was
   shaped again. As long as the clusters are in the text's order (that is, not at the levels CHARACTERS and GRAPHEMES) these are
   a few around the edit; what stands behind it only moves. Script and direction are those that the buffer has; one without a
   script is shaped whole. Set `normalizes_always`: without it a letter that comes apart depends on the whole text. What is
   tested of this, and where it doesn't hold, is in docs/GUIDE.md.
   ATOMIC: unless DONE or INTERNAL is returned, the buffer has the glyphs that it had. ARGUMENT as for sengadlit_shape_utf8, and
   CONTENT: the buffer's text isn't complete (sengadlit_buffer_is_complete); RANGE: `start` is behind `old_end` or `new_end`, or
   that behind the text; OPTIONS: they choose another script or direction. MEMORY. TOO_LONG. STRETCH_OVERFLOW. INTERNAL: only where
   `font` changes its results, or the glyphs aren't those of the text. */
sengadlit_status_t sengadlit_reshape_utf8(const sengadlit_face_t *face, const char *text, int text_length,
                                          unsigned int start, unsigned int old_end, unsigned int new_end,
                                          const sengadlit_shape_options_t *options, sengadlit_buffer_t *buffer,
                                          unsigned int *again_start, unsigned int *again_end);
sengadlit_status_t sengadlit_reshape_utf16(const sengadlit_face_t *face, const uint16_t *text, int text_length,
                                          unsigned int start, unsigned int old_end, unsigned int new_end,
                                          const sengadlit_shape_options_t *options, sengadlit_buffer_t *buffer,
                                          unsigned int *again_start, unsigned int *again_end);
sengadlit_status_t sengadlit_reshape_utf32(const sengadlit_face_t *face, const uint32_t *text, int text_length,
                                          unsigned int start, unsigned int old_end, unsigned int new_end,
                                          const sengadlit_shape_options_t *options, sengadlit_buffer_t *buffer,
                                          unsigned int *again_start, unsigned int *again_end);

/* As hb_buffer_serialize_format_t. */
typedef enum sengadlit_serialize_format_t {
    SENGADLIT_SERIALIZE_FORMAT_TEXT = 0x54455854,
    SENGADLIT_SERIALIZE_FORMAT_JSON = 0x4A534F4E,
    SENGADLIT_SERIALIZE_FORMAT_MAX_VALUE = 0x7FFFFFFF
} sengadlit_serialize_format_t;

/* As hb_buffer_serialize_flags_t. */
enum {
    SENGADLIT_SERIALIZE_FLAG_NO_CLUSTERS = 0x01,
    SENGADLIT_SERIALIZE_FLAG_NO_POSITIONS = 0x02,
    SENGADLIT_SERIALIZE_FLAG_NO_GLYPH_NAMES = 0x04,
    SENGADLIT_SERIALIZE_FLAG_GLYPH_EXTENTS = 0x08,
    SENGADLIT_SERIALIZE_FLAG_GLYPH_FLAGS = 0x10,
    SENGADLIT_SERIALIZE_FLAG_NO_ADVANCES = 0x20
};

/* Writes the text of the buffer in one line, as hb-shape does: glyphs as [gid3=0+563|gid9=1@10,0+0], by the names of a face, which
   may be null; characters, by the content type, as <U+0E01=0|U+0E33=3>. As with snprintf, as much of it is written as has room in
   `size` bytes with a zero behind it, and `length`, which may be null, gets the length of all. `text` may be null if `size` is 0.
   ARGUMENT: OPTIONS, another format or flag; and for a null buffer. */
sengadlit_status_t sengadlit_buffer_serialize(sengadlit_buffer_t *buffer, const sengadlit_face_t *face,
                                              sengadlit_serialize_format_t format, uint32_t flags, char *text, size_t size,
                                              size_t *length);

/* ---- Carets and edits ---- */

/* Where a caret may stand before a glyph in a text of this direction, as values of `cluster`: the borders of clusters, which
   rise. The glyphs are a shaped text in the order in which they are drawn, as sengadlit_shape leaves them, so that clusters fall
   along one of direction RTL or BTT; INVALID counts as LTR. A caret also stands behind the text. A glyph stands for the text from
   the last stop that isn't above its cluster up to the next one, or to the text's end. Where clusters don't keep to the order of
   the text, as the reorderings of Indic may leave them, one is a stop only if all behind it are greater. `length` gets the number
   of stops, unless it is null. The pointer isn't null where there are none, and holds until this function is called again with the
   buffer, or the buffer is destroyed. Null is returned for ARGUMENT: DIRECTION, and for a null buffer; TOO_LONG; IN_CALL; and
   MEMORY, where the buffer never had so many stops. */
const uint32_t *sengadlit_caret_stops(sengadlit_buffer_t *buffer, sengadlit_direction_t direction, unsigned int *length);

/* How many glyphs in front and behind an edit leaves of a text of syllables. */
typedef struct sengadlit_unaffected_t {
    unsigned int front;
    unsigned int back;
} sengadlit_unaffected_t;

/* Which glyphs of a text of syllables an edit affects: those between `unaffected`; the others come out as before. The spans are
   those of sengadlit_spans for the text before the edit and for the text after it; `front` glyphs stand in front of what was
   replaced and `back` behind it, the same in both texts. The syllables that meet the edit aren't enough, since a grammar reads on
   through joiners: of Khmer U+1780 U+200C are two syllables, and with U+17B7 behind them one. A list may be null if its length is
   0. `error` may be null; it is written where anything but DONE is returned. ARGUMENT (and `unaffected` is as it was): SPANS, a
   null list; RANGE, `front` and `back` together are more glyphs than the spans of a text; RESULT. */
sengadlit_status_t sengadlit_affected(const sengadlit_span_t *before, unsigned int before_length,
                                      const sengadlit_span_t *after, unsigned int after_length, unsigned int front,
                                      unsigned int back, sengadlit_unaffected_t *unaffected, sengadlit_error_t *error);

#ifdef __cplusplus
}
#endif
#endif
