/**
 * Reads what csv-metadata.json says of the folder, its tables and their columns (W3C Metadata Vocabulary for Tabular Data, sections 5.2 to 5.7).
 * The service has refused a folder with wrong metadata, so nothing is checked again. A member that is `null` is taken as absent.
 */

/** Returns a text in the reader's language from a text, a list, an object by language, or an object with `@value` or a name. */
function textOf(given, languages) {
    if (given == null || typeof given === "string") {
        return given ?? null;
    }
    if (Array.isArray(given)) {
        const found = languages.map((language) => given.find((one) => one?.["@language"] === language)).find(Boolean);
        return textOf(found ?? given[0], languages);
    }
    if (typeof given === "object") {
        if ("@value" in given || "@id" in given) {
            return String(given["@value"] ?? given["@id"]);
        }
        const name = given["schema:name"] ?? given["foaf:name"];
        return textOf(name ?? given[languages.find((language) => given[language] != null) ?? Object.keys(given)[0]], languages);
    }
    return String(given);
}

/** The languages of the reader, each followed by what it is a part of (de-AT, de), and last the undetermined one. */
const withParents = (languages) => [...languages.flatMap((language) => [language, language.split("-")[0]]), "und"];

/** An inherited member (section 5.7): that of the nearest level which has it. */
const inherited = (name, levels) => levels.map((level) => level?.[name]).find((value) => value != null);

/** A common property (section 5.8), with any of the prefixes that publishers use. */
const common = (level, name, languages) => textOf(level[`dc:${name}`] ?? level[`dcterms:${name}`] ?? level[`schema:${name}`], languages);

const FACTS = ["title", "description", "license", "publisher", "source", "modified"];

const factsOf = (level, languages) => Object.fromEntries(FACTS.map((name) => [name, common(level, name, languages)]));

function columnOf(column, levels, keys, languages) {
    const all = [column, ...levels];
    const datatype = inherited("datatype", all) ?? "string";
    return {
        name: column.name,
        title: textOf(column.titles, languages) ?? column.name,
        description: common(column, "description", languages),
        type: typeof datatype === "string" ? datatype : (datatype.base ?? "string"),
        isKey: keys.includes(column.name),
        isRequired: inherited("required", all) === true,
    };
}

class Table {
    constructor(name, address, columns, facts) {
        Object.assign(this, { name, address, columns, facts });
        this.title = facts.title ?? name;
    }

    /** Returns a column. One that the table lacks is taken as a column of texts, and the service says that there is none. */
    column(name) {
        return this.columns.find((column) => column.name === name) ?? { name, title: name, type: "string" };
    }

    typeOf(name) {
        return this.column(name).type;
    }
}

/** Returns the folder: what is said of it, and its tables in the order of the service document. */
export function folderOf({ listing, metadata }, languages) {
    const spoken = withParents(languages);
    const facts = factsOf(metadata, spoken);
    const described = new Map((metadata.tables ?? [metadata]).map((table) => [table.url.replace(/\.csv$/, ""), table]));
    const tables = listing.value.map(({ name, url }) => {
        const table = described.get(name);
        const schema = table?.tableSchema ?? metadata.tableSchema;
        const keys = [schema?.primaryKey ?? []].flat();
        const columns = (schema?.columns ?? []).map((column) => columnOf(column, [schema, table, metadata], keys, spoken));
        const own = table && metadata.tables ? factsOf(table, spoken) : facts;
        return new Table(name, url, columns, { ...own, license: own.license ?? facts.license, publisher: own.publisher ?? facts.publisher });
    });
    return { facts, tables };
}
