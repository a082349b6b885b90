-- The tables of facts (docs/facts.md).

CREATE TABLE code (
    id INTEGER PRIMARY KEY, sum TEXT NOT NULL, lines INTEGER NOT NULL
);
CREATE TABLE machine (
    id INTEGER PRIMARY KEY, name TEXT NOT NULL, code INTEGER REFERENCES code, shift INTEGER, fault TEXT
);
CREATE TABLE acpi_table (
    id INTEGER PRIMARY KEY, machine INTEGER NOT NULL REFERENCES machine, file TEXT NOT NULL, signature TEXT NOT NULL,
    length INTEGER, revision INTEGER, oem TEXT, oem_table TEXT, oem_revision TEXT, creator TEXT, creator_revision TEXT,
    address TEXT, is_sum_right INTEGER NOT NULL, load_order INTEGER, dump_sum TEXT
);
CREATE TABLE record (
    id INTEGER PRIMARY KEY, acpi_table INTEGER NOT NULL REFERENCES acpi_table, place INTEGER NOT NULL, kind TEXT NOT NULL,
    label TEXT NOT NULL, value TEXT NOT NULL, number INTEGER
);
CREATE TABLE name (
    id INTEGER PRIMARY KEY, code INTEGER NOT NULL REFERENCES code, path TEXT NOT NULL, kind TEXT NOT NULL, arguments INTEGER,
    target INTEGER REFERENCES name, stands TEXT NOT NULL, times INTEGER NOT NULL, value TEXT, sum TEXT, file TEXT, line INTEGER
);
CREATE TABLE method (
    id INTEGER PRIMARY KEY, code INTEGER NOT NULL REFERENCES code, name INTEGER NOT NULL REFERENCES name,
    arguments INTEGER NOT NULL, is_serialized INTEGER NOT NULL, sync_level INTEGER NOT NULL, is_raw INTEGER NOT NULL,
    fault TEXT, waits_for TEXT, file TEXT NOT NULL, line INTEGER NOT NULL
);
CREATE TABLE use (
    id INTEGER PRIMARY KEY, code INTEGER NOT NULL REFERENCES code, method INTEGER REFERENCES method, scope TEXT NOT NULL,
    text TEXT NOT NULL, name INTEGER REFERENCES name, is_local INTEGER NOT NULL, place INTEGER NOT NULL, how TEXT NOT NULL,
    file TEXT NOT NULL, line INTEGER NOT NULL
);
CREATE TABLE region (
    id INTEGER PRIMARY KEY, code INTEGER NOT NULL REFERENCES code, name INTEGER REFERENCES name, method INTEGER REFERENCES method,
    path TEXT NOT NULL, space INTEGER, space_name TEXT NOT NULL, first INTEGER, length INTEGER, first_text TEXT NOT NULL,
    length_text TEXT NOT NULL, pci_device INTEGER, pci_function INTEGER, file TEXT NOT NULL, line INTEGER NOT NULL
);
CREATE TABLE field (
    id INTEGER PRIMARY KEY, code INTEGER NOT NULL REFERENCES code, name INTEGER REFERENCES name, method INTEGER REFERENCES method,
    path TEXT NOT NULL, region INTEGER REFERENCES region, made_by TEXT NOT NULL, bit INTEGER, width INTEGER, access TEXT,
    locks TEXT, updates TEXT, file TEXT NOT NULL, line INTEGER NOT NULL
);
CREATE TABLE resource (
    id INTEGER PRIMARY KEY, code INTEGER NOT NULL REFERENCES code, device INTEGER REFERENCES name, object TEXT NOT NULL,
    kind TEXT NOT NULL, first INTEGER, last INTEGER, length INTEGER, lines TEXT, controller TEXT, speed INTEGER, trigger TEXT,
    polarity TEXT, text TEXT NOT NULL, patched_by TEXT, file TEXT NOT NULL, line INTEGER NOT NULL
);
CREATE TABLE pin (
    id INTEGER PRIMARY KEY, code INTEGER NOT NULL REFERENCES code, resource INTEGER NOT NULL REFERENCES resource,
    number INTEGER NOT NULL
);
CREATE TABLE statement (
    id INTEGER PRIMARY KEY, code INTEGER NOT NULL REFERENCES code, method INTEGER REFERENCES method, scope TEXT NOT NULL,
    kind TEXT NOT NULL, name INTEGER REFERENCES name, number INTEGER, text TEXT NOT NULL, file TEXT NOT NULL, line INTEGER NOT NULL
);
CREATE TABLE identifier (
    id INTEGER PRIMARY KEY, code INTEGER NOT NULL REFERENCES code, device INTEGER REFERENCES name, object TEXT NOT NULL,
    text TEXT NOT NULL, number INTEGER, meaning TEXT, file TEXT NOT NULL, line INTEGER NOT NULL
);

-- The indexes, once all rows are there
CREATE INDEX machine_by_code ON machine (code);
CREATE INDEX acpi_table_by_machine ON acpi_table (machine);
CREATE INDEX acpi_table_by_signature ON acpi_table (signature, oem_table);
CREATE INDEX record_by_label ON record (label, number);
CREATE INDEX record_by_table ON record (acpi_table);
CREATE INDEX name_by_path ON name (path, code);
CREATE INDEX name_by_code ON name (code);
CREATE INDEX name_by_target ON name (target);
CREATE INDEX method_by_name ON method (name);
CREATE INDEX use_by_name ON use (name);
CREATE INDEX use_by_method ON use (method, how);
CREATE INDEX region_by_place ON region (space, first);
CREATE INDEX field_by_region ON field (region);
CREATE INDEX field_by_name ON field (name);
CREATE INDEX resource_by_device ON resource (device);
CREATE INDEX pin_by_resource ON pin (resource);
CREATE INDEX pin_by_number ON pin (number);
CREATE INDEX statement_by_kind ON statement (kind, number);
CREATE INDEX identifier_by_text ON identifier (text);
