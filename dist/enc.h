/* The toolkit for .NET Edit and Continue deltas as a C library. What each call answers is proved
 * against the plain module after all deltas: see docs/library.md, and crates/enc_c for the contracts.
 *
 * Trusted of the caller:
 * - a handle is NULL at first, and from then on only what the library wrote; it isn't copied and used twice;
 * - pointers are valid and aligned for what they point to, lengths are right, and what a call writes
 *   (handle, buffer, size, structs) lies apart from all else that the call is given; where a length is 0
 *   its pointer may be NULL;
 * - one call at a time on a handle, also of those that only look: a handle is closed while a call runs. What two
 *   threads do with one handle at once is undefined: a lock is yours (the packages for C# and Python take one);
 * - a handle stays on the thread that opened it: that another one may use it is tried, not proved;
 * - malloc, realloc and free are those of one allocator;
 * - no call from a signal handler, or from the forked child of a process with threads.
 */
#ifndef ENC_H
#define ENC_H

#include <stddef.h>
#include <stdint.h>

#ifdef __cplusplus
extern "C" {
#endif

/* Which release this header is of. `enc_version` tells that of the library that is linked, as
 * (major << 16) + (minor << 8) + patch. docs/library.md says what may change with which of the three. */
#define ENC_VERSION_MAJOR 0
#define ENC_VERSION_MINOR 9
#define ENC_VERSION_PATCH 0

/* The handle of a module: closed where it is NULL, and else a base with the deltas that follow it. */
typedef struct enc_module_of *enc_module;

/* What a call comes to. 0, 1 and 3 are those of the program `enc`. Written is, at ENC_DONE, what was asked for; at
 * ENC_REFUSED the refusal; at ENC_SHORT of a call that copies each `size`, and of `enc_code` and `enc_code_at` the
 * head; at ENC_MEMORY of `enc_step` what ran; and nothing else. */
typedef enum enc_status {
    ENC_DONE = 0,    /* all is done */
    ENC_REFUSED = 1, /* what is given breaks a rule, or what would be written a limit: `refusal` has it and the place */
    ENC_MEMORY = 3,  /* there is no memory */
    ENC_CLOSED = 7,  /* the handle is closed */
    ENC_OPEN = 8,    /* the handle is open already */
    ENC_SHORT = 9,   /* a buffer is too short: nothing is copied, and each `size` has what is needed. Of `enc_spawn`,
                      * `enc_step` and `enc_session_apply`, which have no buffer: there might be more events than the
                      * session's limit, and nothing is done */
    ENC_ABSENT = 10, /* there is no such row, type, entry, body, document, task or frame; a stream that is no heap has
                      * no entry */
    ENC_UNLIKE = 11, /* the column, the table or the row isn't of the kind that is asked for, or the numbers name no
                      * stream or no refusal; docs/library.md lists which call answers it for what */
    ENC_LATER = 12,  /* there is no such generation */
    ENC_LIMIT = 13,  /* a stated limit is passed: `enc_merge` where a delta's metadata or code has more than 2^26 bytes,
                      * `enc_spawn` where there are 64 tasks, `enc_step` where 4 * count is more than the session's
                      * limit, so that taking the events doesn't help */
    ENC_FEW = 14     /* there are too few: deltas for `enc_merge`, which takes two, or events in the limit of
                      * `enc_session_open`, which must let a step tell its 4 */
} enc_status;

/* The kinds of places of a refusal. */
enum {
    ENC_AT_ROOT = 0,
    ENC_AT_STREAM = 1,   /* stream */
    ENC_AT_HEADERS = 2,
    ENC_AT_CLI = 3,
    ENC_AT_METADATA = 4,
    ENC_AT_RESOURCES = 5,
    ENC_AT_DEBUG = 6,
    ENC_AT_TABLES = 7,
    ENC_AT_PDB = 8,
    ENC_AT_ROW = 9,      /* table, row */
    ENC_AT_CELL = 10,    /* table, row, column */
    ENC_AT_OWNER = 11,   /* table, row: of the child */
    ENC_AT_LOG = 12,     /* entry */
    ENC_AT_JSON = 13,    /* the text of an edit list */
    ENC_AT_EDIT = 14,    /* entry: the edit, or 0 for the list as a whole */
    ENC_AT_IMAGE = 15    /* the image that would be written */
};

/* Streams. Those up to ENC_GUIDS are heaps. For the others `enc_locate_heap` answers ENC_ABSENT, and for a
 * number past ENC_JTD ENC_UNLIKE. */
enum {
    ENC_STRINGS = 0,
    ENC_USERS = 1,
    ENC_BLOBS = 2,
    ENC_GUIDS = 3,
    ENC_COMPRESSED = 4,   /* #~ */
    ENC_UNCOMPRESSED = 5, /* #- */
    ENC_PDB = 6,
    ENC_JTD = 7
};

/* Tables and columns, by the names of ECMA-335 II.22 (library/make_constants). */
/* The tables. The top byte of a token is one of them, but of a user text, which has 70. */
enum {
    ENC_TABLE_MODULE = 0x00,
    ENC_TABLE_TYPE_REF = 0x01,
    ENC_TABLE_TYPE_DEF = 0x02,
    ENC_TABLE_FIELD_PTR = 0x03,
    ENC_TABLE_FIELD = 0x04,
    ENC_TABLE_METHOD_PTR = 0x05,
    ENC_TABLE_METHOD_DEF = 0x06,
    ENC_TABLE_PARAM_PTR = 0x07,
    ENC_TABLE_PARAM = 0x08,
    ENC_TABLE_INTERFACE_IMPL = 0x09,
    ENC_TABLE_MEMBER_REF = 0x0a,
    ENC_TABLE_CONSTANT = 0x0b,
    ENC_TABLE_CUSTOM_ATTRIBUTE = 0x0c,
    ENC_TABLE_FIELD_MARSHAL = 0x0d,
    ENC_TABLE_DECL_SECURITY = 0x0e,
    ENC_TABLE_CLASS_LAYOUT = 0x0f,
    ENC_TABLE_FIELD_LAYOUT = 0x10,
    ENC_TABLE_STAND_ALONE_SIG = 0x11,
    ENC_TABLE_EVENT_MAP = 0x12,
    ENC_TABLE_EVENT_PTR = 0x13,
    ENC_TABLE_EVENT = 0x14,
    ENC_TABLE_PROPERTY_MAP = 0x15,
    ENC_TABLE_PROPERTY_PTR = 0x16,
    ENC_TABLE_PROPERTY = 0x17,
    ENC_TABLE_METHOD_SEMANTICS = 0x18,
    ENC_TABLE_METHOD_IMPL = 0x19,
    ENC_TABLE_MODULE_REF = 0x1a,
    ENC_TABLE_TYPE_SPEC = 0x1b,
    ENC_TABLE_IMPL_MAP = 0x1c,
    ENC_TABLE_FIELD_RVA = 0x1d,
    ENC_TABLE_ENC_LOG = 0x1e,
    ENC_TABLE_ENC_MAP = 0x1f,
    ENC_TABLE_ASSEMBLY = 0x20,
    ENC_TABLE_ASSEMBLY_PROCESSOR = 0x21,
    ENC_TABLE_ASSEMBLY_OS = 0x22,
    ENC_TABLE_ASSEMBLY_REF = 0x23,
    ENC_TABLE_ASSEMBLY_REF_PROCESSOR = 0x24,
    ENC_TABLE_ASSEMBLY_REF_OS = 0x25,
    ENC_TABLE_FILE = 0x26,
    ENC_TABLE_EXPORTED_TYPE = 0x27,
    ENC_TABLE_MANIFEST_RESOURCE = 0x28,
    ENC_TABLE_NESTED_CLASS = 0x29,
    ENC_TABLE_GENERIC_PARAM = 0x2a,
    ENC_TABLE_METHOD_SPEC = 0x2b,
    ENC_TABLE_GENERIC_PARAM_CONSTRAINT = 0x2c
};

/* Module */
enum {
    ENC_MODULE_GENERATION = 0,
    ENC_MODULE_NAME = 1,
    ENC_MODULE_MVID = 2,
    ENC_MODULE_ENC_ID = 3,
    ENC_MODULE_ENC_BASE_ID = 4
};

/* TypeRef */
enum {
    ENC_TYPE_REF_RESOLUTION_SCOPE = 0,
    ENC_TYPE_REF_TYPE_NAME = 1,
    ENC_TYPE_REF_TYPE_NAMESPACE = 2
};

/* TypeDef */
enum {
    ENC_TYPE_DEF_FLAGS = 0,
    ENC_TYPE_DEF_TYPE_NAME = 1,
    ENC_TYPE_DEF_TYPE_NAMESPACE = 2,
    ENC_TYPE_DEF_EXTENDS = 3,
    ENC_TYPE_DEF_FIELD_LIST = 4,
    ENC_TYPE_DEF_METHOD_LIST = 5
};

/* FieldPtr */
enum {
    ENC_FIELD_PTR_FIELD = 0
};

/* Field */
enum {
    ENC_FIELD_FLAGS = 0,
    ENC_FIELD_NAME = 1,
    ENC_FIELD_SIGNATURE = 2
};

/* MethodPtr */
enum {
    ENC_METHOD_PTR_METHOD = 0
};

/* MethodDef */
enum {
    ENC_METHOD_DEF_RVA = 0,
    ENC_METHOD_DEF_IMPL_FLAGS = 1,
    ENC_METHOD_DEF_FLAGS = 2,
    ENC_METHOD_DEF_NAME = 3,
    ENC_METHOD_DEF_SIGNATURE = 4,
    ENC_METHOD_DEF_PARAM_LIST = 5
};

/* ParamPtr */
enum {
    ENC_PARAM_PTR_PARAM = 0
};

/* Param */
enum {
    ENC_PARAM_FLAGS = 0,
    ENC_PARAM_SEQUENCE = 1,
    ENC_PARAM_NAME = 2
};

/* InterfaceImpl */
enum {
    ENC_INTERFACE_IMPL_CLASS = 0,
    ENC_INTERFACE_IMPL_INTERFACE = 1
};

/* MemberRef */
enum {
    ENC_MEMBER_REF_CLASS = 0,
    ENC_MEMBER_REF_NAME = 1,
    ENC_MEMBER_REF_SIGNATURE = 2
};

/* Constant */
enum {
    ENC_CONSTANT_TYPE = 0,
    ENC_CONSTANT_PARENT = 1,
    ENC_CONSTANT_VALUE = 2
};

/* CustomAttribute */
enum {
    ENC_CUSTOM_ATTRIBUTE_PARENT = 0,
    ENC_CUSTOM_ATTRIBUTE_TYPE = 1,
    ENC_CUSTOM_ATTRIBUTE_VALUE = 2
};

/* FieldMarshal */
enum {
    ENC_FIELD_MARSHAL_PARENT = 0,
    ENC_FIELD_MARSHAL_NATIVE_TYPE = 1
};

/* DeclSecurity */
enum {
    ENC_DECL_SECURITY_ACTION = 0,
    ENC_DECL_SECURITY_PARENT = 1,
    ENC_DECL_SECURITY_PERMISSION_SET = 2
};

/* ClassLayout */
enum {
    ENC_CLASS_LAYOUT_PACKING_SIZE = 0,
    ENC_CLASS_LAYOUT_CLASS_SIZE = 1,
    ENC_CLASS_LAYOUT_PARENT = 2
};

/* FieldLayout */
enum {
    ENC_FIELD_LAYOUT_OFFSET = 0,
    ENC_FIELD_LAYOUT_FIELD = 1
};

/* StandAloneSig */
enum {
    ENC_STAND_ALONE_SIG_SIGNATURE = 0
};

/* EventMap */
enum {
    ENC_EVENT_MAP_PARENT = 0,
    ENC_EVENT_MAP_EVENT_LIST = 1
};

/* EventPtr */
enum {
    ENC_EVENT_PTR_EVENT = 0
};

/* Event */
enum {
    ENC_EVENT_EVENT_FLAGS = 0,
    ENC_EVENT_NAME = 1,
    ENC_EVENT_EVENT_TYPE = 2
};

/* PropertyMap */
enum {
    ENC_PROPERTY_MAP_PARENT = 0,
    ENC_PROPERTY_MAP_PROPERTY_LIST = 1
};

/* PropertyPtr */
enum {
    ENC_PROPERTY_PTR_PROPERTY = 0
};

/* Property */
enum {
    ENC_PROPERTY_FLAGS = 0,
    ENC_PROPERTY_NAME = 1,
    ENC_PROPERTY_TYPE = 2
};

/* MethodSemantics */
enum {
    ENC_METHOD_SEMANTICS_SEMANTICS = 0,
    ENC_METHOD_SEMANTICS_METHOD = 1,
    ENC_METHOD_SEMANTICS_ASSOCIATION = 2
};

/* MethodImpl */
enum {
    ENC_METHOD_IMPL_CLASS = 0,
    ENC_METHOD_IMPL_METHOD_BODY = 1,
    ENC_METHOD_IMPL_METHOD_DECLARATION = 2
};

/* ModuleRef */
enum {
    ENC_MODULE_REF_NAME = 0
};

/* TypeSpec */
enum {
    ENC_TYPE_SPEC_SIGNATURE = 0
};

/* ImplMap */
enum {
    ENC_IMPL_MAP_MAPPING_FLAGS = 0,
    ENC_IMPL_MAP_MEMBER_FORWARDED = 1,
    ENC_IMPL_MAP_IMPORT_NAME = 2,
    ENC_IMPL_MAP_IMPORT_SCOPE = 3
};

/* FieldRVA */
enum {
    ENC_FIELD_RVA_RVA = 0,
    ENC_FIELD_RVA_FIELD = 1
};

/* EncLog */
enum {
    ENC_ENC_LOG_TOKEN = 0,
    ENC_ENC_LOG_FUNC_CODE = 1
};

/* EncMap */
enum {
    ENC_ENC_MAP_TOKEN = 0
};

/* Assembly */
enum {
    ENC_ASSEMBLY_HASH_ALG_ID = 0,
    ENC_ASSEMBLY_MAJOR_VERSION = 1,
    ENC_ASSEMBLY_MINOR_VERSION = 2,
    ENC_ASSEMBLY_BUILD_NUMBER = 3,
    ENC_ASSEMBLY_REVISION_NUMBER = 4,
    ENC_ASSEMBLY_FLAGS = 5,
    ENC_ASSEMBLY_PUBLIC_KEY = 6,
    ENC_ASSEMBLY_NAME = 7,
    ENC_ASSEMBLY_CULTURE = 8
};

/* AssemblyProcessor */
enum {
    ENC_ASSEMBLY_PROCESSOR_PROCESSOR = 0
};

/* AssemblyOS */
enum {
    ENC_ASSEMBLY_OS_OS_PLATFORM_ID = 0,
    ENC_ASSEMBLY_OS_OS_MAJOR_VERSION = 1,
    ENC_ASSEMBLY_OS_OS_MINOR_VERSION = 2
};

/* AssemblyRef */
enum {
    ENC_ASSEMBLY_REF_MAJOR_VERSION = 0,
    ENC_ASSEMBLY_REF_MINOR_VERSION = 1,
    ENC_ASSEMBLY_REF_BUILD_NUMBER = 2,
    ENC_ASSEMBLY_REF_REVISION_NUMBER = 3,
    ENC_ASSEMBLY_REF_FLAGS = 4,
    ENC_ASSEMBLY_REF_PUBLIC_KEY_OR_TOKEN = 5,
    ENC_ASSEMBLY_REF_NAME = 6,
    ENC_ASSEMBLY_REF_CULTURE = 7,
    ENC_ASSEMBLY_REF_HASH_VALUE = 8
};

/* AssemblyRefProcessor */
enum {
    ENC_ASSEMBLY_REF_PROCESSOR_PROCESSOR = 0,
    ENC_ASSEMBLY_REF_PROCESSOR_ASSEMBLY_REF = 1
};

/* AssemblyRefOS */
enum {
    ENC_ASSEMBLY_REF_OS_OS_PLATFORM_ID = 0,
    ENC_ASSEMBLY_REF_OS_OS_MAJOR_VERSION = 1,
    ENC_ASSEMBLY_REF_OS_OS_MINOR_VERSION = 2,
    ENC_ASSEMBLY_REF_OS_ASSEMBLY_REF = 3
};

/* File */
enum {
    ENC_FILE_FLAGS = 0,
    ENC_FILE_NAME = 1,
    ENC_FILE_HASH_VALUE = 2
};

/* ExportedType */
enum {
    ENC_EXPORTED_TYPE_FLAGS = 0,
    ENC_EXPORTED_TYPE_TYPE_DEF_ID = 1,
    ENC_EXPORTED_TYPE_TYPE_NAME = 2,
    ENC_EXPORTED_TYPE_TYPE_NAMESPACE = 3,
    ENC_EXPORTED_TYPE_IMPLEMENTATION = 4
};

/* ManifestResource */
enum {
    ENC_MANIFEST_RESOURCE_OFFSET = 0,
    ENC_MANIFEST_RESOURCE_FLAGS = 1,
    ENC_MANIFEST_RESOURCE_NAME = 2,
    ENC_MANIFEST_RESOURCE_IMPLEMENTATION = 3
};

/* NestedClass */
enum {
    ENC_NESTED_CLASS_NESTED_CLASS = 0,
    ENC_NESTED_CLASS_ENCLOSING_CLASS = 1
};

/* GenericParam */
enum {
    ENC_GENERIC_PARAM_NUMBER = 0,
    ENC_GENERIC_PARAM_FLAGS = 1,
    ENC_GENERIC_PARAM_OWNER = 2,
    ENC_GENERIC_PARAM_NAME = 3
};

/* MethodSpec */
enum {
    ENC_METHOD_SPEC_METHOD = 0,
    ENC_METHOD_SPEC_INSTANTIATION = 1
};

/* GenericParamConstraint */
enum {
    ENC_GENERIC_PARAM_CONSTRAINT_OWNER = 0,
    ENC_GENERIC_PARAM_CONSTRAINT_CONSTRAINT = 1
};
/* The end of tables and columns. */

/* The release of the library that is linked. It needs no handle. */
uint32_t enc_version(void);

/* The first rule that is broken, and where. What the place doesn't have is 0. Letters: F and E of files, E at
 * ENC_AT_EDIT of edits, J of the text of an edit list, L4 of a limit of what would be written (ENC_AT_STREAM or
 * ENC_AT_IMAGE), G1 of a row that lies too deep in others to be merged (ENC_AT_ROW). */
typedef struct {
    uint8_t letter; /* 'F', 'E', 'J', 'L' or 'G' */
    uint8_t rule;
    uint8_t place;
    uint8_t stream;
    uint8_t table;
    uint8_t column; /* from 0 in the order of ECMA-335 II.22 */
    uint32_t row;   /* from 1 */
    uint32_t entry; /* of EncLog, or the number of an edit, from 1 */
} enc_refusal;

/* Where a row or an entry of a heap stands: its generation, 0 for the base, and its position there:
 * from 1 of a row and of an entry of #GUID, and else the offset. */
typedef struct {
    uint32_t generation;
    uint32_t position;
} enc_place;

/* What stands before the code of a body. */
typedef struct {
    uint32_t stack;  /* the most values on it */
    uint32_t locals; /* the row of StandAloneSig, 0 where there are no locals */
    uint32_t init;   /* 1 where locals begin as zeros, and else 0 */
} enc_code_head;

/* A sequence point; a hidden one has lines and columns 0. `document` is a number for `enc_document`. */
typedef struct {
    uint32_t offset;
    uint32_t document;
    uint32_t hidden;
    uint32_t start_line;
    uint32_t start_column;
    uint32_t end_line;
    uint32_t end_column;
} enc_point;

/* A pair of a map for `enc_may_remap` and `enc_remap`: where a frame stands in its body, and where it is to stand in
 * the newest one. */
typedef struct {
    uint32_t from;
    uint32_t to;
} enc_pair;

/* An exception clause; its code goes from the first offset to one past the last byte. */
typedef struct {
    uint32_t kind; /* 0 for exceptions of a class, 1 for those that a filter takes, 2 finally, 4 fault */
    uint32_t try_begin;
    uint32_t try_end;
    uint32_t handler_begin;
    uint32_t handler_end;
    uint32_t extra; /* the token of the class, or the offset of the filter; 0 of the others */
} enc_clause;

/* A token of a generation's EncMap. */
typedef struct {
    uint32_t token;
    uint32_t inserted; /* 1 of a row that the generation inserts, 0 of one that it updates */
} enc_entry;

/* How many bytes of #Strings, #US and #Blob count in a generation's own file, and how many whole entries
 * its #GUID has. */
typedef struct {
    uint32_t strings;
    uint32_t users;
    uint32_t blobs;
    uint32_t guids;
} enc_heap_lengths;
/* A row that moves: the numbers of its token and of the one that it becomes. */
typedef struct {
    uint32_t from;
    uint32_t to;
} enc_move;

/* Judges a base, with its Portable PDB where that has bytes, and opens a closed handle. A PDB of length 0 is none.
 * Here and below no length is judged: L1 and L2, which the program asks of files, aren't asked. */
enc_status enc_open(enc_module *module, const uint8_t *bytes, size_t length, const uint8_t *pdb, size_t pdb_length,
                    enc_refusal *refusal);

/* Judges a delta after those before it, with its PDB where that has bytes, and adds it. Where it isn't
 * added, the handle stays as it was. */
enc_status enc_apply(enc_module *module, const uint8_t *metadata, size_t metadata_length, const uint8_t *il,
                     size_t il_length, const uint8_t *pdb, size_t pdb_length, enc_refusal *refusal);

/* Judges a delta as `enc_apply` does, and adds nothing. */
enc_status enc_check(enc_module *module, const uint8_t *metadata, size_t metadata_length, const uint8_t *il,
                     size_t il_length, const uint8_t *pdb, size_t pdb_length, enc_refusal *refusal);

/* Closes a handle and frees what it held; ENC_CLOSED where it was closed before. */
enc_status enc_close(enc_module *module);

/* Tokens are numbers as in IL: the table in the top byte, the row in the three below. */

/* How many generations there are, the base among them; how many rows a table has, 0 of a number that is no table. */
enc_status enc_generations(enc_module *module, uint32_t *count);
enc_status enc_count(enc_module *module, uint8_t table, uint32_t *count);

/* Where the newest place of a row is, and where an offset of a joined heap stands. */
enc_status enc_locate(enc_module *module, uint32_t token, enc_place *place);
enc_status enc_locate_heap(enc_module *module, uint32_t heap, uint32_t offset, enc_place *place);

/* The number, and the token, in a column; nil is 0. */
enc_status enc_number(enc_module *module, uint32_t token, uint8_t column, uint32_t *number);
enc_status enc_token(enc_module *module, uint32_t token, uint8_t column, uint32_t *found);

/* The owner of a row of Field, MethodDef, Param, Event or Property. */
enc_status enc_owner(enc_module *module, uint32_t token, uint32_t *owner);

/* How long a generation's own heaps are, and how many rows a table had after the first so many deltas. */
enc_status enc_lengths(enc_module *module, uint32_t generation, enc_heap_lengths *lengths);
enc_status enc_count_at(enc_module *module, uint32_t generation, uint8_t table, uint32_t *count);

/* The type with these names, in UTF-8; nested in another, or in none where the token of that has row 0, of whatever
 * table. Of several it is the first. It goes over the rows of TypeDef, or over those of NestedClass. */
enc_status enc_find_type(enc_module *module, uint32_t enclosing, const uint8_t *space, size_t space_length,
                         const uint8_t *name, size_t name_length, uint32_t *token);

/* The calls below copy into a buffer of `length` items and tell how many there are in `size`. */

/* The rows of a row's children in a child table. */
enc_status enc_kids(enc_module *module, uint32_t token, uint8_t table, uint32_t *buffer, size_t length, size_t *size);

/* The EncId of a generation, sixteen zeros for the base. */
enc_status enc_id(enc_module *module, uint32_t generation, uint8_t *buffer, size_t length, size_t *size);

/* The bytes of a text, a blob or a GUID in a column. */
enc_status enc_text(enc_module *module, uint32_t token, uint8_t column, uint8_t *buffer, size_t length, size_t *size);
enc_status enc_blob(enc_module *module, uint32_t token, uint8_t column, uint8_t *buffer, size_t length, size_t *size);
enc_status enc_guid(enc_module *module, uint32_t token, uint8_t column, uint8_t *buffer, size_t length, size_t *size);

/* The row as `enc show` prints it. */
enc_status enc_row(enc_module *module, uint32_t token, uint8_t *buffer, size_t length, size_t *size);

/* The code of a method's newest body, without its header, and what that says. ENC_ABSENT of a method without one. */
enc_status enc_code(enc_module *module, uint32_t method, uint8_t *buffer, size_t length, size_t *size,
                    enc_code_head *head);

/* The exception clauses of a method's newest body. ENC_ABSENT of a method without one. */
enc_status enc_clauses(enc_module *module, uint32_t method, enc_clause *buffer, size_t length, size_t *size);

/* The bytes of the UTF-16 units of the user text at an offset of the joined heap, as `ldstr` names it (without 70 in
 * the top byte). */
enc_status enc_user_text(enc_module *module, uint32_t offset, uint8_t *buffer, size_t length, size_t *size);

/* The tokens of a generation's EncMap but the Module's, in its order; the base has none. */
enc_status enc_entries(enc_module *module, uint32_t generation, enc_entry *buffer, size_t length, size_t *size);

/* The rows of Field, MethodDef, Param, Event or Property with this name that belong to a row: to a type (its events and
 * properties too), to a method, or to a row of EventMap or PropertyMap. It goes over the children of that row alone,
 * and for the events and properties of a type over their map. */
enc_status enc_find_member(enc_module *module, uint32_t owner, uint8_t table, const uint8_t *name, size_t name_length,
                           uint32_t *buffer, size_t length, size_t *size);

/* The sequence points of a method, and the name of a document that one of them has. Where no PDB has any of the method,
 * it has none, with a body or without: ENC_DONE, and `size` 0. */
enc_status enc_points(enc_module *module, uint32_t method, enc_point *buffer, size_t length, size_t *size);
enc_status enc_document(enc_module *module, uint32_t method, uint32_t number, uint8_t *buffer, size_t length,
                        size_t *size);

/* What was after the first `generation` deltas, though more were applied since: the row as `enc show` printed it then,
 * the code, the points and a document of a method. ENC_LATER where there is no such generation. A look-up takes the
 * time of one now, and some more that is logarithmic in the number of generations. */
enc_status enc_row_at(enc_module *module, uint32_t generation, uint32_t token, uint8_t *buffer, size_t length,
                      size_t *size);
enc_status enc_code_at(enc_module *module, uint32_t generation, uint32_t method, uint8_t *buffer, size_t length,
                       size_t *size, enc_code_head *head);
enc_status enc_points_at(enc_module *module, uint32_t generation, uint32_t method, enc_point *buffer, size_t length,
                         size_t *size);
enc_status enc_document_at(enc_module *module, uint32_t generation, uint32_t method, uint32_t number, uint8_t *buffer,
                           size_t length, size_t *size);

/* For a host with frames of its own: whether a frame of a method may go on in the method's newest body. It has the body
 * that the method had after the first `generation` deltas and stands at an offset of it; the map leads from offsets to
 * offsets. `rule` is 0 where it may, and else the first that is broken (docs/scripts.md has them as Q3 to Q7): 3 no
 * visible point stands at its offset; 4 no pair leads from there; 5 where it leads no instruction with a visible point
 * begins; 6 the local variables aren't those of the old body and perhaps more, or the interpreter doesn't run the new
 * one; 7 where it leads lies in a handler of the newest body. Its stack and its running handlers are the host's
 * matter. ENC_ABSENT where the method had no body then. */
enc_status enc_may_remap(enc_module *module, uint32_t method, uint32_t generation, uint32_t offset, const enc_pair *map,
                         size_t length, uint32_t *rule);

/* The calls below write files into buffers, each with its size. Where one of the buffers is too short none is
 * written, and all sizes are told. The handle stays as it is. They do their work again each time, and it isn't proved
 * that two calls make files of one size: give room enough, or ask again as long as it is ENC_SHORT (docs/library.md
 * has the loop). */

/* The one module that has all edits, and its PDB. ENC_REFUSED with L4 where one passes a limit. */
enc_status enc_save(enc_module *module, uint8_t *image, size_t image_length, size_t *image_size,
                    uint8_t *pdb, size_t pdb_length, size_t *pdb_size, enc_refusal *refusal);

/* The same with its rows in the order of an ordinary module (ECMA-335 II.22), and the rows that move, by rising
 * tokens `from`. */
enc_status enc_compact(enc_module *module, uint8_t *image, size_t image_length, size_t *image_size,
                       uint8_t *pdb, size_t pdb_length, size_t *pdb_size,
                       enc_move *moves, size_t moves_length, size_t *moves_size, enc_refusal *refusal);

/* One delta that stands for the last two: its metadata, its code and its PDB. ENC_FEW, or ENC_LIMIT; or
 * ENC_REFUSED with L4 where its PDB passes its limit, or with G1 where a reference lies too deep in others. */
enc_status enc_merge(enc_module *module, uint8_t *metadata, size_t metadata_length, size_t *metadata_size,
                     uint8_t *il, size_t il_length, size_t *il_size,
                     uint8_t *pdb, size_t pdb_length, size_t *pdb_size, enc_refusal *refusal);

/* The delta of an edit list, which is JSON (docs/edits.md): ENC_REFUSED with J1 where it is none, with J2 and the
 * edit that isn't of the form, or with the rule of edits that one breaks. */
enc_status enc_write(enc_module *module, const uint8_t *json, size_t json_length,
                     uint8_t *metadata, size_t metadata_length, size_t *metadata_size,
                     uint8_t *il, size_t il_length, size_t *il_size,
                     uint8_t *pdb, size_t pdb_length, size_t *pdb_size, enc_refusal *refusal);

/* The words of a refusal as the program prints them, with the end of the line: `E16 06000001\n`. ENC_UNLIKE where there
 * is no such rule (F1 to F12, E1 to E24, the rules of docs/edits.md, J1, J2, L4, G1), no such kind of place, or no such
 * place: a table that there isn't (but of E6, E7 and E9, which tell tokens as EncMap and EncLog have them), a column
 * past the table's, an owner of a table without owners, or G1 of another row than a TypeRef or a TypeSpec. */
enc_status enc_words(const enc_refusal *refusal, uint8_t *buffer, size_t length, size_t *size);

/* A session: tasks that make steps over a base while deltas are applied to it. It is closed where it is NULL, and is
 * no enc_module: what is said of handles above holds for it too. Each call enters the newest body of its method, and a
 * frame that is under way goes on in the body with which it began, or that of its last remap. */
typedef struct enc_session_of *enc_session;

/* How many steps ran, and how it stands with the task. */
typedef struct {
    uint32_t ran;   /* one that trapped isn't counted, and one with which the task ended is */
    uint32_t state; /* ENC_RUNNING, ENC_ENDED or ENC_TRAPPED */
    uint32_t trap;  /* 1 to 14 for X1 to X14 where it trapped, and else 0 */
} enc_stepped;

enum {
    ENC_RUNNING = 0,
    ENC_ENDED = 1,
    ENC_TRAPPED = 2
};

/* What came of a remap. */
typedef struct {
    uint32_t rule; /* 0 where the frame was moved, and else the first of Q1 to Q7 that is broken; then the rest is 0 */
    uint32_t method;
    uint32_t from;
    uint32_t to;
} enc_remapped;

/* A frame of a task. */
typedef struct {
    uint32_t method;     /* its token */
    uint32_t generation; /* that brought the body with which it began, or that of its last remap; 0 for the base */
    uint32_t offset;     /* of its next instruction, in bytes */
    uint32_t line;       /* the start line of its body's last point that isn't hidden at or before the offset, or 0 */
    uint32_t arguments;  /* how many it has */
    uint32_t locals;
    uint32_t stack;
} enc_frame;

/* What a frame holds. */
enum {
    ENC_ARGUMENTS = 0,
    ENC_LOCALS = 1,
    ENC_STACK = 2 /* from the bottom up */
};

/* A value. */
typedef struct {
    uint32_t kind;
    uint32_t object; /* the number of the object, from 1, and else 0 */
    int64_t number;  /* the integer, and else 0 */
} enc_value;

enum {
    ENC_INT32 = 0,
    ENC_INT64 = 1,
    ENC_NULL = 2,
    ENC_OBJECT = 3
};

/* An event. What its kind doesn't have is 0. */
typedef struct {
    uint32_t kind;
    uint32_t task;   /* from 1 */
    uint32_t method; /* its token */
    uint32_t detail;
} enc_event;

enum {
    ENC_SPAWNED = 1,       /* task, method */
    ENC_ENTERED = 2,       /* task, method */
    ENC_LEFT = 3,          /* task, method */
    ENC_LINE = 4,          /* task, method; detail is the line */
    ENC_APPLIED = 5,       /* detail is the generation */
    ENC_DELTA_REFUSED = 6, /* detail is the letter of the rule times 256, and its number */
    ENC_TASK_TRAPPED = 7,  /* task; detail is the number of the trap */
    ENC_TASK_ENDED = 8     /* task */
};

/* Judges a base, with its PDB where that has bytes, and opens a closed session: no task, and no event. There can be
 * `limit` events that `enc_events` has not taken; memory for them is taken here. Nothing is judged where that is less
 * than 4: ENC_FEW, behind ENC_OPEN. A call that might pass the limit returns ENC_SHORT before it does anything: a spawn
 * tells at most 3 events, a step at most 4, a delta 1. */
enc_status enc_session_open(enc_session *session, const uint8_t *bytes, size_t length, const uint8_t *pdb,
                            size_t pdb_length, uint32_t limit, enc_refusal *refusal);

/* Closes a session and frees what it held; ENC_CLOSED where it was closed before. */
enc_status enc_session_close(enc_session *session);

/* Begins a task with a method, and tells its number, from 1. ENC_LIMIT where there are 64 tasks; ENC_UNLIKE where the
 * method isn't a static one without parameters, or the interpreter doesn't run it or its type's constructor. */
enc_status enc_spawn(enc_session *session, uint32_t method, uint32_t *task);

/* Makes at most `count` steps of a task, until it ends or traps. ENC_ABSENT where no task has the number, and then
 * ENC_LIMIT where 4 * count is more than the session's limit, and then ENC_SHORT where 4 * count events more might pass
 * it beside those that wait: take these and call again. At ENC_MEMORY `stepped` is written too: the steps that
 * it counts were made and stand, and are fewer than `count`. In all other cases of ENC_MEMORY nothing has changed. */
enc_status enc_step(enc_session *session, uint32_t task, uint32_t count, enc_stepped *stepped);

/* Judges a delta after those before it, with its PDB where that has bytes, and applies it. Where it is refused, that is
 * an event, and all else stays as it was. */
enc_status enc_session_apply(enc_session *session, const uint8_t *metadata, size_t metadata_length, const uint8_t *il,
                             size_t il_length, const uint8_t *pdb, size_t pdb_length, enc_refusal *refusal);

/* Has the innermost frame of a task go on in the newest body of its method, where the map leads from its offset. */
enc_status enc_remap(enc_session *session, uint32_t task, const enc_pair *map, size_t length, enc_remapped *remapped);

/* The state of all tasks and objects, as a script's `state` prints it. */
enc_status enc_state(enc_session *session, uint8_t *buffer, size_t length, size_t *size);

/* How it stands with a task; `ran` is 0. ENC_ABSENT where no task has the number. */
enc_status enc_task(enc_session *session, uint32_t task, enc_stepped *stepped);

/* The frames of a task, from the outermost; none of a task that has ended. ENC_ABSENT where no task has the number. */
enc_status enc_frames(enc_session *session, uint32_t task, enc_frame *buffer, size_t length, size_t *size);

/* The arguments, locals or stack of a frame, which is counted from 0 for the outermost. ENC_UNLIKE where `which` is
 * none of them, and then ENC_ABSENT where there is no such task or frame. */
enc_status enc_values(enc_session *session, uint32_t task, uint32_t frame, uint32_t which, enc_value *buffer,
                      size_t length, size_t *size);

/* All events, and all lines that steps wrote or with which tasks ended or trapped, since the last call that returned
 * ENC_DONE. At ENC_SHORT all of them stay: none is lost. */
enc_status enc_events(enc_session *session, enc_event *buffer, size_t length, size_t *size);
enc_status enc_output(enc_session *session, uint8_t *buffer, size_t length, size_t *size);

#ifdef __cplusplus
}
#endif

#endif
