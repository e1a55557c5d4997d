-- Prints the subject of a certificate, the time at which its validity ends, and its other names (RFC 5280 4.1, 4.2.1.6).
-- sqlite3 -cmd '.load LIB/soqavise_sqlite' < expiry.sql, where certificate.pem is
CREATE TEMP TABLE certificate AS SELECT asn1_pem(readfile('certificate.pem')) AS der;
SELECT asn1_name(asn1_get('Certificate', der, 'tbsCertificate.subject')) FROM certificate;
SELECT asn1_get('Certificate', der, 'tbsCertificate.validity.notAfter') FROM certificate;
SELECT name, value FROM certificate, asn1_parts('GeneralNames',
    asn1_extension(asn1_get('Certificate', der, 'tbsCertificate.extensions'), '2.5.29.17'))
WHERE depth = 2;
