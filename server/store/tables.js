// The tables, and the statements over them. Of two servers that add an entry at one place of a log the key lets one alone.

/** The channel on which servers tell each other that a log has grown or a note was made. */
export const CHANNEL = "gezhufet"

export const TABLES = `
CREATE TABLE IF NOT EXISTS gezhufet_documents (
  name text PRIMARY KEY, schema_name text NOT NULL, schema text NOT NULL, doc text NOT NULL, made timestamptz NOT NULL DEFAULT now());
CREATE TABLE IF NOT EXISTS gezhufet_entries (
  document text NOT NULL REFERENCES gezhufet_documents, version bigint NOT NULL CHECK (version >= 0), client text NOT NULL,
  step text NOT NULL, added timestamptz NOT NULL DEFAULT now(), PRIMARY KEY (document, version));
CREATE TABLE IF NOT EXISTS gezhufet_snapshots (
  document text NOT NULL REFERENCES gezhufet_documents, version bigint NOT NULL, doc text NOT NULL, PRIMARY KEY (document, version));
CREATE TABLE IF NOT EXISTS gezhufet_notes (
  document text NOT NULL REFERENCES gezhufet_documents, id text NOT NULL, value text NOT NULL, PRIMARY KEY (document, id));
ALTER TABLE gezhufet_documents ADD COLUMN IF NOT EXISTS epoch text NOT NULL DEFAULT '', ADD COLUMN IF NOT EXISTS mark text;
`

/** Where the tables are: the cluster, how often it went on from an older state, the database, and which table of it this is. What was
 * restored is elsewhere. */
const MARK = `(
SELECT concat_ws('.', system_identifier, timeline_id, pg_database.oid, 'gezhufet_entries'::regclass::oid)
FROM pg_control_system(), pg_control_checkpoint(), pg_database WHERE datname = current_database())`

export const MAKE = `
INSERT INTO gezhufet_documents (name, schema_name, schema, doc, epoch, mark)
VALUES ($1, $2, $3, $4, $5, ${MARK}) ON CONFLICT DO NOTHING`

export const DOCUMENT = `
SELECT schema_name, schema, doc, epoch, mark IS NOT DISTINCT FROM ${MARK} AS is_marked FROM gezhufet_documents WHERE name = $1`

/** Gives a document another epoch where it was made elsewhere: of two servers one alone does. */
export const RENEW = `
UPDATE gezhufet_documents SET epoch = $2, mark = ${MARK} WHERE name = $1 AND mark IS DISTINCT FROM ${MARK}`

export const FORGET_EPOCHS = "UPDATE gezhufet_documents SET mark = NULL"

/** The newest document that is kept: a snapshot, or none. */
export const SNAPSHOT = `
SELECT version, doc FROM gezhufet_snapshots WHERE document = $1 ORDER BY version DESC LIMIT 1`

/** Entries from a place on, in order. */
export const ENTRIES = `
SELECT version, client, step FROM gezhufet_entries WHERE document = $1 AND version >= $2 ORDER BY version LIMIT $3`

/** How long each of some logs is. */
export const LENGTHS = `
SELECT name, (SELECT coalesce(max(version) + 1, 0) FROM gezhufet_entries WHERE document = name) AS version
FROM unnest($1::text[]) AS names (name)`

/** Adds the steps of one client from a place on, all or none, and tells the other servers. */
export const ADD = `
WITH added AS (
  INSERT INTO gezhufet_entries (document, version, client, step)
  SELECT $1, $2::bigint + place - 1, $3, step FROM unnest($4::text[]) WITH ORDINALITY AS steps (step, place) RETURNING 1)
SELECT pg_notify('${CHANNEL}', $5) FROM (SELECT count(*) FROM added) AS counted`

/** Keeps a snapshot, and lets all go but it and the one before. */
export const KEEP = `
INSERT INTO gezhufet_snapshots (document, version, doc) VALUES ($1, $2, $3) ON CONFLICT DO NOTHING`

export const FORGET = `
DELETE FROM gezhufet_snapshots WHERE document = $1 AND version < (
  SELECT min(version) FROM (SELECT version FROM gezhufet_snapshots WHERE document = $1 ORDER BY version DESC LIMIT 2) AS kept)`

export const NOTES = "SELECT id, value FROM gezhufet_notes WHERE document = $1"
export const NOTE = "SELECT value FROM gezhufet_notes WHERE document = $1 AND id = $2"

export const SET_NOTE = `
WITH kept AS (
  INSERT INTO gezhufet_notes (document, id, value) VALUES ($1, $2, $3)
  ON CONFLICT (document, id) DO UPDATE SET value = excluded.value RETURNING 1)
SELECT pg_notify('${CHANNEL}', $4) FROM (SELECT count(*) FROM kept) AS counted`

/** Changes a note where it is still what it was. */
export const CHANGE_NOTE = `
WITH kept AS (UPDATE gezhufet_notes SET value = $4 WHERE document = $1 AND id = $2 AND value = $3 RETURNING 1)
SELECT pg_notify('${CHANNEL}', $5) FROM kept`

export const DROP_NOTE = `
WITH gone AS (DELETE FROM gezhufet_notes WHERE document = $1 AND id = $2 RETURNING 1)
SELECT pg_notify('${CHANNEL}', $3) FROM (SELECT count(*) FROM gone) AS counted`

export const TELL = `SELECT pg_notify('${CHANNEL}', $1)`

/** What adds rows: where one is refused, documents can't be kept. */
export const KEEPS = new Set([MAKE, ADD, KEEP, SET_NOTE])

/** Adds a document, and entries of more bytes than a page has: to be taken back. */
export const TRY = `
WITH made AS (INSERT INTO gezhufet_documents (name, schema_name, schema, doc) VALUES ('', '', '', '') RETURNING name)
INSERT INTO gezhufet_entries (document, version, client, step)
SELECT name, place, '', (SELECT string_agg(md5(place::text || part), '') FROM generate_series(1, 60) AS part)
FROM made, generate_series(1, 5) AS place`
