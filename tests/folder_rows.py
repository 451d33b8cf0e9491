"""Folders with what they are answered with, written by hand from the standards: for `tests/folder_cases`.

In a list of lines the answer stands behind ` => `; `accepted` is metadata that is not refused.
"""

# ---- columns of metadata (Metadata Vocabulary for Tabular Data, sections 5.6, 5.7 and 5.11), and what metadata with them is answered with
NAMES = r'''{"name":"A"} => accepted
{"name":"a_1"} => accepted
{} => Unsupported name
{"name":null} => Unsupported name
{"name":""} => BadName
{"name":1} => BadName
{"name":"1a"} => BadName
{"name":"_a"} => BadName
{"name":"a b"} => BadName
{"name":"a-b"} => BadName
{"name":"é"} => BadName
{"name":"A"},{"name":"A"} => DuplicateName
{"name":"A"},{"name":"a"} => accepted
"A" => NotObject
null => NotObject'''
# A title that is null is no text inside an array, and counts as absent in a language map.
TITLES = r'''{"name":"A","titles":"B"} => accepted
{"name":"A","titles":["B","C"]} => accepted
{"name":"A","titles":[]} => accepted
{"name":"A","titles":{}} => accepted
{"name":"A","titles":null} => accepted
{"name":"A","titles":{"en":"B","de":["C","D"]}} => accepted
{"name":"A","titles":{"en":null,"de":"C"}} => accepted
{"name":"A","titles":1} => BadTitles
{"name":"A","titles":true} => BadTitles
{"name":"A","titles":["B",null]} => BadTitles
{"name":"A","titles":["B",1]} => BadTitles
{"name":"A","titles":{"en":1}} => BadTitles
{"name":"A","titles":{"en":{}}} => BadTitles
{"name":"A","titles":{"en":["B",null]}} => BadTitles'''
DATATYPES = r'''{"name":"A","datatype":"integer"} => accepted
{"name":"A","datatype":{"base":"date"}} => accepted
{"name":"A","datatype":{}} => accepted
{"name":"A","datatype":{"base":null}} => accepted
{"name":"A","datatype":null} => accepted
{"name":"A","datatype":"float"} => Unsupported float
{"name":"A","datatype":{"base":"dateTime"}} => Unsupported dateTime
{"name":"A","datatype":"Integer"} => Unsupported Integer
{"name":"A","datatype":1} => BadDatatype
{"name":"A","datatype":["integer"]} => BadDatatype
{"name":"A","datatype":{"base":1}} => BadDatatype'''
# The constraints on a datatype are not served, and are read over beside it.
CONSTRAINTS = r'''{"name":"A","datatype":{"length":1}} => Unsupported length
{"name":"A","datatype":{"minLength":1}} => Unsupported minLength
{"name":"A","datatype":{"maxLength":1}} => Unsupported maxLength
{"name":"A","datatype":{"minimum":1}} => Unsupported minimum
{"name":"A","datatype":{"maximum":1}} => Unsupported maximum
{"name":"A","datatype":{"minInclusive":1}} => Unsupported minInclusive
{"name":"A","datatype":{"maxInclusive":1}} => Unsupported maxInclusive
{"name":"A","datatype":{"minExclusive":1}} => Unsupported minExclusive
{"name":"A","datatype":{"maxExclusive":1}} => Unsupported maxExclusive
{"name":"A","datatype":{"length":null}} => accepted
{"name":"A","length":1,"format":1} => accepted'''
# A format of JSON null counts as absent.
FORMATS_OF_BOOLEANS = r'''{"name":"A","datatype":{"base":"boolean","format":"Y|N"}} => accepted
{"name":"A","datatype":{"base":"boolean","format":null}} => accepted
{"name":"A","datatype":{"base":"boolean","format":"Y"}} => BadFormat
{"name":"A","datatype":{"base":"boolean","format":"Y|"}} => BadFormat
{"name":"A","datatype":{"base":"boolean","format":"|N"}} => BadFormat
{"name":"A","datatype":{"base":"boolean","format":"Y|Y"}} => BadFormat
{"name":"A","datatype":{"base":"boolean","format":"Y|N|M"}} => BadFormat
{"name":"A","datatype":{"base":"boolean","format":1}} => BadFormat'''
# Integers and texts have no format, of whatever type.
FORMATS_OF_OTHERS = r'''{"name":"A","datatype":{"base":"date","format":"dd.MM.yyyy"}} => accepted
{"name":"A","datatype":{"base":"date","format":"d.M.yyyy"}} => BadFormat
{"name":"A","datatype":{"base":"date","format":["yyyyMMdd"]}} => BadFormat
{"name":"A","datatype":{"base":"integer","format":"#0"}} => Unsupported format
{"name":"A","datatype":{"base":"integer","format":null}} => accepted
{"name":"A","datatype":{"format":1}} => Unsupported format'''
# What columns inherit: texts of null, a default, and whether a value is required.
OTHER_MEMBERS = r'''{"name":"A","null":"NA"} => accepted
{"name":"A","null":["NA",""]} => accepted
{"name":"A","null":[]} => accepted
{"name":"A","null":null} => accepted
{"name":"A","null":1} => BadNull
{"name":"A","null":{}} => BadNull
{"name":"A","null":["NA",null]} => BadNull
{"name":"A","default":"5"} => accepted
{"name":"A","default":5} => BadDefault
{"name":"A","default":["5"]} => BadDefault
{"name":"A","required":true} => accepted
{"name":"A","required":"true"} => BadRequired
{"name":"A","required":1} => BadRequired'''
OTHER_COLUMNS = r'''{"name":"A","virtual":false} => accepted
{"name":"A","virtual":null} => accepted
{"name":"A","virtual":true} => Unsupported virtual
{"name":"A","virtual":"false"} => Unsupported virtual
{"name":"A","separator":";"} => Unsupported separator
{"name":"A","separator":null} => accepted
{"name":"A","dialect":{},"transformations":[],"lang":"en"} => accepted'''
# What is not served, the name, the titles, and then what a column inherits, in the order of these.
COLUMNS_IN_ORDER = r'''{"titles":1,"separator":";","virtual":true} => Unsupported virtual
{"titles":1,"separator":";"} => Unsupported separator
{"titles":1} => Unsupported name
{"name":"1","titles":1} => BadName
{"name":"A"},{"name":"A","titles":1} => DuplicateName
{"name":"A","titles":1,"datatype":1} => BadTitles
{"name":"A","required":1,"default":1,"null":1,"datatype":1} => BadDatatype
{"name":"A","required":1,"default":1,"null":1} => BadNull
{"name":"A","required":1,"default":1} => BadDefault
{"name":"A","required":1} => BadRequired'''
# The name of a datatype, its constraints in their order, and then its format.
DATATYPES_IN_ORDER = r'''{"name":"A","datatype":{"base":"float","length":1}} => Unsupported float
{"name":"A","datatype":{"maxExclusive":1,"maxLength":1,"minLength":1}} => Unsupported minLength
{"name":"A","datatype":{"minExclusive":1,"minInclusive":1,"maximum":1}} => Unsupported maximum
{"name":"A","datatype":{"base":"date","format":"x","minimum":1}} => Unsupported minimum'''
# A decimal has no format, whatever it is.
DECIMAL_COLUMNS = r'''{"name":"A","datatype":"decimal"} => accepted
{"name":"A","datatype":{"base":"decimal","format":null}} => accepted
{"name":"A","datatype":{"base":"decimal","format":"0.00"}} => Unsupported format
{"name":"A","datatype":{"base":"decimal","format":7}} => Unsupported format
{"name":"A","datatype":{"base":"decimal","minimum":"0"}} => Unsupported minimum
{"name":"A","datatype":"Decimal"} => Unsupported Decimal'''

# ---- metadata texts (Metadata Vocabulary for Tabular Data, section 5; RFC 8259)
DOCUMENTS = r''' => NotJson
{ => NotJson
{} {} => NotJson
{'url':'a.csv'} => NotJson
{"n":1e999} => NotJson
{"n":"\ud800"} => NotJson
[] => NotObject
1 => NotObject
null => NotObject
{} => NoTables
{"tables":[]} => NoTables
{"tables":{}} => NoTables
{"tables":null} => NoTables
{"url":null} => NoTables
{"tables":[null]} => NotObject
{"tables":["a.csv"]} => NotObject'''
URLS = r'''{"url":"a/b.csv"} => BadUrl
{"url":""} => BadUrl
{"url":".csv"} => BadUrl
{"url":"a"} => BadUrl
{"url":"a.CSV"} => BadUrl
{"url":"1.csv"} => BadUrl
{"url":"a.b.csv"} => BadUrl
{"url":"http://h/a.csv"} => BadUrl
{"url":1} => BadUrl
{"tables":[{}]} => BadUrl
{"tables":[{"url":null}]} => BadUrl
{"url":"a.csv"} => NoColumns
{"url":"Z-_9.csv"} => NoColumns'''
EQUAL_URLS = r'''{"tableSchema":{"columns":[{"name":"A"}]},"tables":[{"url":"a.csv"},{"url":"b.csv"},{"url":"a.csv"}]} => DuplicateUrl
{"tableSchema":{"columns":[{"name":"A"}]},"tables":[{"url":"a.csv"},{"url":"A.csv"}]} => accepted'''
# A schema of the table, or else of its group; one that no table uses is not looked at.
SCHEMAS = r'''{"url":"a.csv","tableSchema":"a.json"} => Unsupported tableSchema
{"url":"a.csv","tableSchema":[]} => NoColumns
{"url":"a.csv","tableSchema":{}} => NoColumns
{"url":"a.csv","tableSchema":{"columns":[]}} => NoColumns
{"url":"a.csv","tableSchema":{"columns":{}}} => NoColumns
{"tableSchema":"a.json","tables":[{"url":"a.csv","tableSchema":{"columns":[{"name":"A"}]}}]} => accepted
{"tableSchema":"a.json","tables":[{"url":"a.csv","tableSchema":null}]} => Unsupported tableSchema
{"tableSchema":{"columns":[{"name":"A"}]},"tables":[{"url":"a.csv"}]} => accepted'''
# The last of repeated members counts.
REPEATED_MEMBERS = r'''{"url":"1","url":"a.csv","tableSchema":{"columns":[{"name":"A"}]}} => accepted
{"url":"a.csv","url":"1","tableSchema":{"columns":[{"name":"A"}]}} => BadUrl
{"url":"a.csv","dialect":{},"dialect":null,"tableSchema":{"columns":[{"name":"A"}]}} => accepted
{"url":"a.csv","required":true,"required":"x","tableSchema":{"columns":[{"name":"A"}]}} => BadRequired'''
# One byte order mark is dropped, a second one is no JSON.
BYTE_ORDER_MARKS = [
    ('\ufeff{"url":"a.csv","tableSchema":{"columns":[{"name":"A"}]}}', "accepted"),
    ('\ufeff\ufeff{"url":"a.csv","tableSchema":{"columns":[{"name":"A"}]}}', "NotJson"),
]
# The group before its tables, the tables one after another.
GROUPS_IN_ORDER = r'''{"dialect":{},"transformations":[],"separator":";","tables":[1]} => Unsupported dialect
{"transformations":[],"separator":";","datatype":1,"tables":[1]} => Unsupported transformations
{"separator":";","datatype":1,"tables":[1]} => Unsupported separator
{"datatype":1,"tables":[1]} => BadDatatype
{"dialect":{},"tables":[]} => NoTables
{"tables":[{"url":"a.csv"},1]} => NoColumns
{"tableSchema":{"columns":[{"name":"1"}]},"tables":[{"url":"a.csv"},1]} => BadName
{"tableSchema":{"columns":[{"name":"A"}]},"tables":[{"url":"a.csv"},1]} => NotObject'''
# The url, what is not served, what columns inherit, and then the schema.
TABLES_IN_ORDER = r'''{"url":"1.csv","dialect":{}} => BadUrl
{"dialect":{},"url":"a.csv"} => Unsupported dialect
{"url":"a.csv","separator":";","transformations":[]} => Unsupported transformations
{"url":"a.csv","separator":";","required":1} => Unsupported separator
{"url":"a.csv","required":1,"tableSchema":"x"} => BadRequired
{"tableSchema":{"columns":[{"name":"A"}]},"tables":[{"url":"a.csv"},{"url":"a.csv","dialect":{}}]} => DuplicateUrl
{"notes":{"dialect":{}},"url":"a.csv","tableSchema":{"dialect":{},"transformations":[],"columns":[{"name":"A"}]}} => accepted'''
# What is not served, what columns inherit, the columns one after another, and then the key.
SCHEMAS_IN_ORDER = r'''{"url":"a.csv","tableSchema":{"separator":";","null":1,"columns":[]}} => Unsupported separator
{"url":"a.csv","tableSchema":{"null":1,"columns":[]}} => BadNull
{"url":"a.csv","tableSchema":{"columns":[],"primaryKey":1}} => NoColumns
{"url":"a.csv","tableSchema":{"columns":[{"name":"A","default":1},{"name":"1"}],"primaryKey":1}} => BadDefault
{"url":"a.csv","tableSchema":{"columns":[{"name":"A"},{"name":"A"}],"primaryKey":1}} => DuplicateName
{"url":"a.csv","tableSchema":{"columns":[{"name":"A"}],"primaryKey":1}} => BadKey'''
# A level that a nearer one overrides is checked all the same.
OVERRIDDEN_LEVELS = r'''{"required":1,"tables":[{"url":"a.csv","required":true,"tableSchema":{"required":true,"columns":[{"name":"A","required":true}]}}]} => BadRequired
{"url":"a.csv","datatype":"float","tableSchema":{"columns":[{"name":"A","datatype":"integer"}]}} => Unsupported float
{"url":"a.csv","tableSchema":{"null":[null],"columns":[{"name":"A","null":"NA"}]}} => BadNull'''
# Keys of a table with the columns `A` and `B`.
PRIMARY_KEYS = r'''"A" => accepted
["A"] => accepted
["B","A"] => accepted
null => accepted
"C" => BadKey
"a" => BadKey
["A","C"] => BadKey
["A","A"] => BadKey
["A",null] => BadKey
[] => BadKey
{} => BadKey
0 => BadKey'''
COLUMNS = '{"url":"a.csv","tableSchema":{"columns":['
NAME = COLUMNS + '{"name":"'
# Values nest to 127, the object around them among them. A url has at most 132 characters, a column's name 128; there are at most 256
# tables, and 256 columns of a table.
# Two texts, between them one so often and then another so often, and what that metadata is answered with.
LIMITS = [
    ('{"n":', '[', 126, ']', '}', 'NoTables'),
    ('{"n":', '[', 127, ']', '}', 'NotJson'),
    ('{"url":"', 'a', 128, "", '.csv"}', 'NoColumns'),
    ('{"url":"', 'a', 129, "", '.csv"}', 'BadUrl'),
    (NAME, 'a', 128, "", '"}]}}', 'accepted'),
    (NAME, 'a', 129, "", '"}]}}', 'BadName'),
    ('{"tables":[', '{},', 255, "", '{}]}', 'BadUrl'),
    ('{"tables":[', '{},', 256, "", '{}]}', 'TooManyTables'),
    (COLUMNS, '{},', 255, "", '{}]}}', 'Unsupported name'),
    (COLUMNS, '{},', 256, "", '{}]}}', 'TooManyColumns'),
]

# ---- cells (Model for Tabular Data and Metadata on the Web, section 6.4): what a column says beside its name, behind ` | ` a text in it, and what that is
# An optional sign and digits, of 64 signed bits: the first and the last, and their neighbours; what is no integer, and white space
# around one.
INTEGERS = r'''"datatype":"integer" | 9223372036854775806 => integer 9223372036854775806
"datatype":"integer" | 9223372036854775807 => integer 9223372036854775807
"datatype":"integer" | 9223372036854775808 => OutOfRange
"datatype":"integer" | -9223372036854775807 => integer -9223372036854775807
"datatype":"integer" | -9223372036854775808 => integer -9223372036854775808
"datatype":"integer" | -9223372036854775809 => OutOfRange
"datatype":"integer" | 99999999999999999999999999999999999999999 => OutOfRange
"datatype":"integer" | 00000000000000000000000000000000000000009 => integer 9
"datatype":"integer" | +7 => integer 7
"datatype":"integer" | 007 => integer 7
"datatype":"integer" | -0 => integer 0
"datatype":"integer" | + => NotInteger
"datatype":"integer" | - => NotInteger
"datatype":"integer" | --1 => NotInteger
"datatype":"integer" | 1.5 => NotInteger
"datatype":"integer" | 1 2 => NotInteger
"datatype":"integer" | 1,000 => NotInteger
"datatype":"integer" | 0x1 => NotInteger
"datatype":"integer" |  7  => integer 7
"datatype":"integer" |  +7  => integer 7
"datatype":"integer" |  => null'''
BOOLEANS = r'''"datatype":"boolean" | true => boolean true
"datatype":"boolean" | 1 => boolean true
"datatype":"boolean" | false => boolean false
"datatype":"boolean" | 0 => boolean false
"datatype":"boolean" |  true  => boolean true
"datatype":"boolean" | True => NotBoolean
"datatype":"boolean" | yes => NotBoolean
"datatype":"boolean" | 01 => NotBoolean
"datatype":"boolean" |  => null'''
# A format has the text of true and that of false, and no others count.
BOOLEANS_WITH_A_FORMAT = r'''"datatype":{"base":"boolean","format":"Y|N"} | Y => boolean true
"datatype":{"base":"boolean","format":"Y|N"} | N => boolean false
"datatype":{"base":"boolean","format":"Y|N"} | y => NotBoolean
"datatype":{"base":"boolean","format":"Y|N"} | true => NotBoolean
"datatype":{"base":"boolean","format":"Y|N"} | 1 => NotBoolean
"datatype":{"base":"boolean","format":"Y|N"} | Y|N => NotBoolean
"datatype":{"base":"boolean","format":"of course|never"} |  never  => boolean false'''
# The days of the Gregorian calendar in the years 1 to 9999. Each part has just its digits, and nothing follows.
DATES = r'''"datatype":"date" | 1900-02-29 => NotDate
"datatype":"date" | 2000-02-29 => date 2000-02-29
"datatype":"date" | 2023-02-29 => NotDate
"datatype":"date" | 2024-02-29 => date 2024-02-29
"datatype":"date" | 2024-02-30 => NotDate
"datatype":"date" | 2024-04-31 => NotDate
"datatype":"date" | 2024-13-01 => NotDate
"datatype":"date" | 2024-00-01 => NotDate
"datatype":"date" | 2024-01-00 => NotDate
"datatype":"date" | 0000-01-01 => NotDate
"datatype":"date" | 0001-01-01 => date 0001-01-01
"datatype":"date" | 9999-12-31 => date 9999-12-31
"datatype":"date" | 10000-01-01 => NotDate
"datatype":"date" | -0001-01-01 => NotDate
"datatype":"date" | 2024-1-02 => NotDate
"datatype":"date" | 24-01-02 => NotDate
"datatype":"date" | 2024/01/02 => NotDate
"datatype":"date" | 20240102 => NotDate
"datatype":"date" | 2024-01-02Z => NotDate
"datatype":"date" | 2024-01-02T00:00:00 => NotDate
"datatype":"date" | 2024- 1-02 => NotDate
"datatype":"date" | 2024-+1-02 => NotDate
"datatype":"date" |  2024-01-02  => date 2024-01-02
"datatype":"date" |  => null'''
DATES_WITH_A_FORMAT = r'''"datatype":{"base":"date","format":"dd/MM/yyyy"} | 29/02/2024 => date 2024-02-29
"datatype":{"base":"date","format":"dd/MM/yyyy"} | 29/02/2023 => NotDate
"datatype":{"base":"date","format":"dd/MM/yyyy"} | 02/29/2024 => NotDate
"datatype":{"base":"date","format":"dd/MM/yyyy"} | 1/2/2024 => NotDate
"datatype":{"base":"date","format":"dd/MM/yyyy"} | 2024-02-29 => NotDate
"datatype":{"base":"date","format":"MM/dd/yyyy"} | 02/29/2024 => date 2024-02-29
"datatype":{"base":"date","format":"MM/dd/yyyy"} | 29/02/2024 => NotDate
"datatype":{"base":"date","format":"yyyyMMdd"} | 20240229 => date 2024-02-29
"datatype":{"base":"date","format":"yyyyMMdd"} | 2024-02-29 => NotDate
"datatype":{"base":"date","format":"dd.MM.yyyy"} | 29.02.2024 => date 2024-02-29
"datatype":{"base":"date","format":"dd.MM.yyyy"} | 29/02/2024 => NotDate
"datatype":{"base":"date","format":"yyyy-MM-dd"} | 2024-02-29 => date 2024-02-29'''
# A text is taken as it stands.
STRINGS = r'''"datatype":"string" | Oslo => string Oslo
"datatype":"string" | null => string null
"datatype":"string" |  => null
"titles":"B" | Oslo => string Oslo
"titles":"B" | null => string null
"titles":"B" |  => null'''
# The texts that stand for null take the place of the empty one.
TEXTS_OF_NULL = r'''"null":"NA" | NA => null
"null":"NA" | na => string na
"null":["NA",""] | NA => null
"null":["NA",""] |  => null
"null":["NA",""] |  NA => string  NA
"null":[] | NA => string NA
"null":["n/a","no  word"],"datatype":"integer" |  n/a  => null
"null":["n/a","no  word"],"datatype":"integer" | no  word => NotInteger
"null":["n/a","no  word"],"datatype":"integer" |  => NotInteger
"null":[],"datatype":"date" |  => NotDate
"null":[],"datatype":"boolean" |  => NotBoolean'''
# A default stands in for an empty text, is not normalized, and may stand for null.
DEFAULTS = r'''"default":"5","datatype":"integer" |  => integer 5
"default":"5","datatype":"integer" |   => integer 5
"default":"5","datatype":"integer" | 6 => integer 6
"default":" 5 ","datatype":"integer" |  => NotInteger
"default":" 5 ","datatype":"integer" |  6  => integer 6
"default":"NA","null":"NA","datatype":"integer" |  => null'''
# A null in a required column is missing.
REQUIRED_VALUES = r'''"required":true |  => Missing
"required":true,"null":"NA" | NA => Missing
"required":true,"datatype":"integer" |  => Missing
"required":true,"datatype":"integer" |   => Missing
"required":true,"datatype":"integer" | 0 => integer 0
"required":true,"default":"5","datatype":"integer" |  => integer 5
"required":true,"default":"NA","null":"NA" |  => Missing'''
# What a column says beside its name, a text in it, and what it is: texts and answers that no line can show.
OTHER_TEXTS = [
    ('"datatype":"integer"', "١", "NotInteger"),
    ('"datatype":"integer"', "\xa07", "NotInteger"),
    ('"datatype":"integer"', "\t\r\n7 \n", "integer 7"),
    ('"datatype":"integer"', " \t ", "null"),
    ('"datatype":{"base":"boolean","format":"of course|never"}', "of\tcourse", "boolean true"),
    ('"datatype":"string"', "  two  spaces ", "string   two  spaces "),
    ('"datatype":"string"', "a\r\nb\tc", "string a\r\nb\tc"),
    ('"datatype":"string"', " ", "string  "),
    ('"titles":"B"', "  two  spaces ", "string   two  spaces "),
    ('"titles":"B"', "a\r\nb\tc", "string a\r\nb\tc"),
    ('"titles":"B"', " ", "string  "),
    ('"null":"NA"', "", "string "),
    ('"null":[]', "", "string "),
    ('"default":" x "', "", "string  x "),
    ('"default":" x "', " ", "string  "),
    ('"required":true', " ", "string  "),
    ('"required":true,"null":"NA"', "", "string "),
]
# An optional sign and digits with at most one point, in millionths of 64 signed bits: the first and the last, and their neighbours; what
# has more than six places; and what is no decimal.
DECIMALS = [
    (".5", "millionths 500000"),
    ("5.", "millionths 5000000"),
    ("2.50", "millionths 2500000"),
    ("-0.000001", "millionths -1"),
    ("10", "millionths 10000000"),
    ("-.5", "millionths -500000"),
    ("+7.25", "millionths 7250000"),
    ("-0", "millionths 0"),
    ("000000000000000000000000000000001.5", "millionths 1500000"),
    ("9223372036854.775806", "millionths 9223372036854775806"),
    ("9223372036854.775807", "millionths 9223372036854775807"),
    ("9223372036854.775808", "OutOfRange"),
    ("-9223372036854.775808", "millionths -9223372036854775808"),
    ("-9223372036854.775809", "OutOfRange"),
    ("18446744073709.551616", "OutOfRange"),
    ("99999999999999999999999999999999999999999", "OutOfRange"),
    ("1.0000000", "millionths 1000000"),
    ("1.0000001", "TooFine"),
    ("0.0000009", "TooFine"),
    ("99999999999999999999.0000001", "TooFine"),
    ("1.00000010", "TooFine"),
    (".", "NotDecimal"),
    ("+.", "NotDecimal"),
    ("+", "NotDecimal"),
    ("1e3", "NotDecimal"),
    ("1.5.", "NotDecimal"),
    ("1.2.3", "NotDecimal"),
    ("x.0000001", "NotDecimal"),
    ("1.000000x", "NotDecimal"),
    ("--1", "NotDecimal"),
    ("+-1", "NotDecimal"),
    ("1,5", "NotDecimal"),
    ("1 5", "NotDecimal"),
    ("1_000", "NotDecimal"),
    ("INF", "NotDecimal"),
    ("١", "NotDecimal"),
    (" 2.5 ", "millionths 2500000"),
    ("", "null"),
    (" \t ", "null"),
]
# A default that is not normal is not read, and a null may be missing.
DECIMALS_WITH_OTHER_MEMBERS = [
    ('"default":".5","datatype":"decimal"', "", "millionths 500000"),
    ('"default":".5","datatype":"decimal"', "1", "millionths 1000000"),
    ('"default":" 5 ","datatype":{"base":"decimal"}', "", "NotDecimal"),
    ('"required":true,"null":"-","datatype":"decimal"', "-", "Missing"),
    ('"required":true,"null":"-","datatype":"decimal"', "-1", "millionths -1000000"),
]
# Each inherited member comes from the nearest level that has it, of column, schema, table and group, and a datatype as a whole.
LEVELS = r'''{"datatype":"integer","tables":[{"url":"a.csv","datatype":"boolean","tableSchema":{"datatype":"date","columns":[{"name":"A","datatype":"string"}]}}]} | 1 => string 1
{"datatype":"integer","tables":[{"url":"a.csv","datatype":"boolean","tableSchema":{"datatype":"date","columns":[{"name":"A","datatype":null}]}}]} | 1 => NotDate
{"datatype":"integer","tables":[{"url":"a.csv","datatype":"boolean","tableSchema":{"columns":[{"name":"A"}]}}]} | 1 => boolean true
{"datatype":"integer","tables":[{"url":"a.csv","tableSchema":{"columns":[{"name":"A"}]}}]} | 1 => integer 1
{"url":"a.csv","required":true,"tableSchema":{"columns":[{"name":"A","required":false}]}} |  => null
{"required":true,"tables":[{"url":"a.csv","null":"NA","tableSchema":{"default":"NA","columns":[{"name":"A"}]}}]} |  => Missing
{"required":true,"tables":[{"url":"a.csv","null":"NA","tableSchema":{"default":"NA","columns":[{"name":"A"}]}}]} | x => string x
{"url":"a.csv","null":["NA","-"],"tableSchema":{"columns":[{"name":"A","null":"-"}]}} | - => null
{"url":"a.csv","null":["NA","-"],"tableSchema":{"columns":[{"name":"A","null":"-"}]}} | NA => string NA
{"url":"a.csv","tableSchema":{"datatype":{"base":"date","format":"dd/MM/yyyy"},"columns":[{"name":"A","datatype":"date"}]}} | 2024-02-29 => date 2024-02-29
{"url":"a.csv","tableSchema":{"datatype":{"base":"date","format":"dd/MM/yyyy"},"columns":[{"name":"A","datatype":"date"}]}} | 29/02/2024 => NotDate'''

# ---- folders (Model for Tabular Data and Metadata on the Web, section 6): their tables with all values, or the one cause why they are refused
# The metadata of three tables.
BASE = r'''{"@context":"http://www.w3.org/ns/csvw","tables":[
{"url":"cities.csv","tableSchema":{"columns":[{"name":"Id","datatype":"integer"},{"name":"Name"},{"name":"Pop","datatype":"integer"},{"name":"Open","datatype":"boolean"},{"name":"Since","datatype":"date"}],"primaryKey":"Id"}},
{"url":"people.csv","tableSchema":{"columns":[{"name":"Name","titles":"Full name"},{"name":"Age","datatype":"integer"}],"primaryKey":["Name"]}},
{"url":"codes.csv","tableSchema":{"columns":[{"name":"Id","datatype":"integer"},{"name":"Code","null":"NA"}],"primaryKey":"Id"}}]}
'''
CITIES = ("cities.csv", 'Id,Name,Pop,Open,Since\n1,Oslo,700000,true,1048-01-01\n2,"Foo, ""Bar""",,false,\n3,,5,,2024-02-29\n')
# A fourth city, with a fault.
BAD_CITIES = ("cities.csv", 'Id,Name,Pop,Open,Since\n1,Oslo,700000,true,1048-01-01\n2,"Foo, ""Bar""",,false,\n3,,5,,2024-02-29\n1,x,z,,\n')
# A fourth city without a key.
NULL_CITIES = ("cities.csv", 'Id,Name,Pop,Open,Since\n1,Oslo,700000,true,1048-01-01\n2,"Foo, ""Bar""",,false,\n3,,5,,2024-02-29\n,x,,,\n')
# A fourth city with the key of the first.
TWICE_CITIES = ("cities.csv", 'Id,Name,Pop,Open,Since\n1,Oslo,700000,true,1048-01-01\n2,"Foo, ""Bar""",,false,\n3,,5,,2024-02-29\n1,x,,,\n')
PEOPLE = ("people.csv", "Full name,Age\nO'Hara,41\n")
NO_PEOPLE = ("people.csv", "")
CODES = ("codes.csv", 'Id,Code\n1,NA\n2,\n3,"a,b"\n')
OTHERS = ("notes.csv", '"')
# All values of the three tables.
THREE_TABLES = 'cities 3 5; integer 1; string Oslo; integer 700000; boolean true; date 1048-01-01; integer 2; string Foo, "Bar"; null; boolean false; null; integer 3; null; integer 5; null; date 2024-02-29\npeople 1 2; string O\'Hara; integer 41\ncodes 3 2; integer 1; null; integer 2; string ; integer 3; string a,b\n'
# The files of the folder of three tables. Those that no table names are ignored; the tables are taken in the order of the metadata.
FOLDERS = [
    ([CITIES, PEOPLE, CODES], THREE_TABLES),
    ([OTHERS, CODES, PEOPLE, CITIES], THREE_TABLES),
    ([CITIES, NO_PEOPLE], "people.csv: NoHeader"),
    ([CITIES, CODES], "people.csv: FileMissing"),
    ([], "cities.csv: FileMissing"),
    ([BAD_CITIES, CODES], "cities.csv: Cell row 3 col 2 NotInteger"),
    ([NULL_CITIES, CODES], "cities.csv: KeyNull row 3"),
    ([TWICE_CITIES, CODES], "cities.csv: KeyTwice row 3"),
]
# The metadata of one table of two columns.
TWO = '{"url":"a.csv","tableSchema":{"columns":[{"name":"Id","datatype":"integer"},{"name":"Since","datatype":"date"}]}}'
# What a file of CSV is refused for; its width comes before its header, and that before its cells, row by row.
FILES_OF_TWO = [
    ("", "a.csv: NoHeader"),
    ("\ufeff", "a.csv: NoHeader"),
    ('Id,Since\n"1"x,\n', "a.csv: AfterQuote at 12"),
    ('Id,Since\n1",\n', "a.csv: StrayQuote at 10"),
    ("Id,Since\n1\r2,\n", "a.csv: BareCr at 11"),
    ('Id,Since\n1,"\n', "a.csv: Unfinished at 13"),
    ('\ufeffId,Since\n1,"\n', "a.csv: Unfinished at 16"),
    ("x,y\n1,2\n3\n", "a.csv: Width row 1"),
    ("x,Since\nz,\n", "a.csv: Header col 0"),
    ("Id,x\nz,\n", "a.csv: Header col 1"),
    ("Id\nz\n", "a.csv: Header col 1"),
    ("Id,Since,x\nz,,\n", "a.csv: Header col 2"),
    ("id,Since\n1,\n", "a.csv: Header col 0"),
    ("Id,Since\n1,x\nz,\n", "a.csv: Cell row 0 col 1 NotDate"),
    ("Id,Since\n1,\nz,x\n", "a.csv: Cell row 1 col 0 NotInteger"),
    ("Id,Since\n9223372036854775808,\n", "a.csv: Cell row 0 col 0 OutOfRange"),
    ("Id,Since\n9223372036854775807,\n-9223372036854775808,\n", "a 2 2; integer 9223372036854775807; null; integer -9223372036854775808; null\n"),
    ('Id,Since\r\n" 7 ","2024-02-29"\r\n', "a 1 2; integer 7; date 2024-02-29\n"),
]
# The metadata of a table in which one column requires a value.
REQUIRED = '{"url":"a.csv","required":true,"tableSchema":{"columns":[{"name":"A"},{"name":"B","datatype":"boolean","required":false}]}}'
FILES_OF_REQUIRED = [
    ("A,B\nx,\n", "a 1 2; string x; null\n"),
    ("A,B\nx,\n,yes\n", "a.csv: Cell row 1 col 0 Missing"),
    ('A,B\n"",1\n', "a.csv: Cell row 0 col 0 Missing"),
    ("A,B\nx,yes\n,\n", "a.csv: Cell row 0 col 1 NotBoolean"),
]
# The metadata of a table of one column with titles.
TABLE_WITH_TITLES = '{"url":"a.csv","tableSchema":{"columns":[{"name":"A","titles":{"de":["Ort","Ort, \\"neu\\""],"en":"Place","fr":null}}]}}'
# A header cell is the name of its column, or one of its titles.
FILES_OF_TITLES = [
    ("A\n", "a 0 1\n"),
    ("Ort\n", "a 0 1\n"),
    ('"Ort, ""neu"""\n', "a 0 1\n"),
    ("Place\n", "a 0 1\n"),
    (" Place\n", "a.csv: Header col 0"),
    ("place\n", "a.csv: Header col 0"),
    ("de\n", "a.csv: Header col 0"),
    ("\n", "a.csv: Header col 0"),
]
# The metadata of a table with a key of one column.
KEY = '{"url":"a.csv","tableSchema":{"columns":[{"name":"Id","datatype":"integer"},{"name":"Pop","datatype":"integer"}],"primaryKey":"Id"}}'
# Keys are looked at once all cells have values: a null first, then the first row equal to an earlier one. They are equal as values.
FILES_OF_KEY = [
    ("Id,Pop\n1,\n2,\n", "a 2 2; integer 1; null; integer 2; null\n"),
    ("Id,Pop\n+7,\n8,\n 7 ,\n", "a.csv: KeyTwice row 2"),
    ("Id,Pop\n7,\n007,\n", "a.csv: KeyTwice row 1"),
    ("Id,Pop\n1,\n1,\n,\n", "a.csv: KeyNull row 2"),
    ("Id,Pop\n,\n,z\n", "a.csv: Cell row 1 col 1 NotInteger"),
    ("Id,Pop\n1,\n2,\n2,\n1,\n", "a.csv: KeyTwice row 2"),
]
# The metadata of a table with a key of two columns.
KEYS = '{"url":"a.csv","tableSchema":{"columns":[{"name":"A"},{"name":"B"}],"primaryKey":["B","A"]}}'
FILES_OF_KEYS = [
    ("A,B\n1,x\n1,y\n2,x\n", "a 3 2; string 1; string x; string 1; string y; string 2; string x\n"),
    ("A,B\n1,x\n1,\n1,x\n", "a.csv: KeyNull row 1"),
    ("A,B\n1,x\n2,x\n1,x\n", "a.csv: KeyTwice row 2"),
]
