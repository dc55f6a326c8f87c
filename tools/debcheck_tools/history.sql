-- The history of the pages, one file of SQLite. Each part brings a file of the version before to its own; `PRAGMA user_version` says which one a file has.
-- Dates are those of UTC, as 2026-11-29T06:00:00Z. What is open has no `until`.

-- version 1
CREATE TABLE run (
    id INTEGER PRIMARY KEY,
    began TEXT NOT NULL
) STRICT;

-- A cell of the matrix; kind is 'packages' or 'sources', first the run of its first answer.
CREATE TABLE cell (
    id INTEGER PRIMARY KEY,
    suite TEXT NOT NULL,
    kind TEXT NOT NULL,
    architecture TEXT NOT NULL,
    first INTEGER REFERENCES run,
    UNIQUE (suite, kind, architecture)
) STRICT;

-- What a run found of a cell, or the fault for which it has no answer.
CREATE TABLE count (
    run INTEGER NOT NULL REFERENCES run ON DELETE CASCADE,
    cell INTEGER NOT NULL REFERENCES cell ON DELETE CASCADE,
    asked INTEGER,
    broken INTEGER,
    fault TEXT,
    PRIMARY KEY (run, cell),
    CHECK ((fault IS NULL) = (asked IS NOT NULL AND broken IS NOT NULL))
) STRICT, WITHOUT ROWID;

-- The last answer of a cell: of which inputs, and all that its pages show, as JSON that zlib has compressed.
CREATE TABLE answer (
    cell INTEGER PRIMARY KEY REFERENCES cell ON DELETE CASCADE,
    run INTEGER NOT NULL REFERENCES run,
    digest TEXT NOT NULL,
    document BLOB NOT NULL
) STRICT;

-- Names of packages, and of what is wrong.
CREATE TABLE name (
    id INTEGER PRIMARY KEY,
    text TEXT NOT NULL UNIQUE
) STRICT;

-- From which run on packages of a name were broken, and the run that found none any more; is_gone: since no package has the name.
CREATE TABLE broken (
    cell INTEGER NOT NULL REFERENCES cell ON DELETE CASCADE,
    package INTEGER NOT NULL REFERENCES name,
    since INTEGER NOT NULL REFERENCES run,
    until INTEGER REFERENCES run,
    is_gone INTEGER NOT NULL DEFAULT 0,
    PRIMARY KEY (cell, package, since)
) STRICT, WITHOUT ROWID;
CREATE INDEX broken_until ON broken (until);
CREATE INDEX broken_since ON broken (since);
CREATE INDEX broken_package ON broken (package);

-- version 2
-- From which run on a wrong was among the causes of a broken package.
CREATE TABLE cause (
    cell INTEGER NOT NULL REFERENCES cell ON DELETE CASCADE,
    package INTEGER NOT NULL REFERENCES name,
    wrong INTEGER NOT NULL REFERENCES name,
    since INTEGER NOT NULL REFERENCES run,
    until INTEGER REFERENCES run,
    PRIMARY KEY (cell, package, wrong, since)
) STRICT, WITHOUT ROWID;
CREATE INDEX cause_until ON cause (until);
CREATE INDEX cause_since ON cause (since);
CREATE INDEX cause_package ON cause (package);
CREATE INDEX cause_wrong ON cause (wrong);
