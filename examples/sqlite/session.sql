-- Two meters of electricity: the old one counts in steps of 1/256 kWh, the new one in steps of 1/65536.
CREATE TABLE meter (name TEXT PRIMARY KEY, format TEXT NOT NULL);
CREATE TABLE reading (meter TEXT NOT NULL REFERENCES meter, hour INTEGER NOT NULL, bits INTEGER NOT NULL);
INSERT INTO meter VALUES ('old', 'U24F8'), ('new', 'U16F16');

-- What was read, as text. The numbers are stored as their bits.
INSERT INTO reading
SELECT column1, column2, fixed_bits(column3, format)
FROM (VALUES ('old', 1, '1021.5'), ('old', 2, '1022.0625'), ('old', 3, '1023.1'),
             ('new', 1, '0.00042'), ('new', 2, '0.75'), ('new', 3, '2.3333'))
JOIN meter ON name = column1;

.headers on

-- The shortest decimal of each, and its exact value.
SELECT meter, hour, bits, fixed_text(bits, format) AS kwh, fixed_text(bits, format, 16) AS exactly
FROM reading JOIN meter ON name = meter ORDER BY meter, hour;

-- What each used: the bits of a difference are the difference of the bits.
SELECT meter, fixed_text(max(bits) - min(bits), format) AS used,
       fixed_text(max(bits) - min(bits), format, 2) AS billed,
       fixed_text(fixed_round(max(bits) - min(bits), format, 'ceil'), format) AS whole
FROM reading JOIN meter ON name = meter GROUP BY meter;

-- What both used: the bits are first those of one format.
SELECT fixed_text(sum(used), 'U32F16') AS together
FROM (SELECT fixed_convert(max(bits) - min(bits), format, 'U32F16') AS used
      FROM reading JOIN meter ON name = meter GROUP BY meter);

-- Readings above 2.25 kWh, whatever their format.
SELECT meter, hour FROM reading JOIN meter ON name = meter
WHERE fixed_compare(bits, format, fixed_bits('2.25', 'U24F8'), 'U24F8') > 0 ORDER BY meter, hour;
