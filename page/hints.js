/**
 * Says what is likely meant if the service refuses a condition, judging by its text.
 */
const TEXTS = /'(?:[^']|'')*'/g;

const HINTS = [
    [/[^!<>]==?/, "“=” is written eq: State eq 'WA'."],
    [/!=|<>/, "“Not equal” is written ne."],
    [/(?<!<)[<>](?!>)=?/, "“<”, “<=”, “>”, “>=” are written lt, le, gt, ge."],
    [/&&/, "“&&” is written and."],
    [/\|\|/, "“||” is written or."],
    [/"/, "A text is put between single quotes: 'Oslo'."],
    [/\b(tolower|toupper|lower|upper)\s*\(/i,
        "Case can’t be ignored (tolower is not served): ask for each spelling, contains(Name,'oslo') or contains(Name,'Oslo'). The search field does so."],
    [/\blike\b/i, "“like” is written contains(Name,'part'), startswith(Name,'front') or endswith(Name,'end')."],
    [/\b(average|avg|mean)\b/i, "There is no average here: a column’s menu and the groups show means."],
    [/\bis (not )?null\b/i, "“is null” is written eq null, and “is not null” ne null."],
    [/\b(now|date|substring|trim|round|floor|ceiling|hour)\s*\(/i,
        "This function is not served. These are: contains, startswith, endswith, length, indexof, concat, year, month, day."],
    [/\d,\d/, "A number has a point, and no comma: 2.5."],
];

/** Hints by the code of the reply, if the text itself gave none. */
const OF_CODES = {
    Mismatch: "Texts need quotes ('7'); numbers and days have none (7, 2024-05-01).",
    TooMany: "The condition has too many parts for one request: search for less, or filter one column.",
};

const count = (text, pattern) => (text.match(pattern) ?? []).length;

/** The names of columns: those that differ from a word of the text by case alone first. */
function nameHints(text, { columns }) {
    const words = new Set(text.match(/[A-Za-z_]\w*/g));
    const near = columns.filter(({ name }) => !words.has(name) && [...words].some((word) => word.toLowerCase() === name.toLowerCase()));
    return [...near.map(({ name }) => `The column is written ${name}.`), `Columns: ${columns.map(({ name }) => name).join(", ")}.`];
}

/** Returns sentences about a text that was refused with a code. */
export function hintsOf(text, code, table) {
    const bare = text.replace(TEXTS, "''");
    const found = HINTS.filter(([pattern]) => pattern.test(bare)).map(([, words]) => words);
    if (code === "UnknownName") {
        found.push(...nameHints(bare, table));
    }
    if (found.length === 0 && Object.hasOwn(OF_CODES, code)) {
        found.push(OF_CODES[code]);
    }
    if (count(bare, /\(/g) !== count(bare, /\)/g)) {
        found.push("A parenthesis is not closed, or not opened.");
    }
    return found;
}
