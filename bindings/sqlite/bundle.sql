-- Prints the subject of each certificate of a text of PEM, and the time at which its validity ends (RFC 5280 4.1).
-- sqlite3 -cmd '.load LIB/soqavise_sqlite' < bundle.sql, where bundle.pem is
CREATE TEMP TABLE block AS
    WITH RECURSIVE rest(text) AS (
        SELECT CAST(readfile('bundle.pem') AS TEXT)
        UNION ALL SELECT substr(text, instr(text, '-----END ') + 9) FROM rest WHERE text LIKE '%-----END %')
    SELECT asn1_pem(text) AS octets FROM rest;
SELECT asn1_name(asn1_get('Certificate', octets, 'tbsCertificate.subject')),
    asn1_get('Certificate', octets, 'tbsCertificate.validity.notAfter')
FROM block WHERE octets NOT NULL AND asn1_check('Certificate', octets) IS NULL;
