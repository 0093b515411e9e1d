-- A book of edition 1, as a program of edition 1 left it: seven entries, of which the last is a sale. It takes from the lot of the label "a",
-- by edition 1 the first of the two, which are of one day; by edition 2 it would be "b", which was opened first.
BEGIN;
CREATE TABLE book (mark TEXT NOT NULL, edition INTEGER NOT NULL, UNIQUE (mark)) STRICT;
INSERT INTO book VALUES ('lot-book', 1);
CREATE TABLE account (name TEXT NOT NULL, opened INTEGER NOT NULL, closed INTEGER, method TEXT NOT NULL, UNIQUE (name)) STRICT;
INSERT INTO account VALUES ('Assets:Broker', 18262, NULL, 'FIFO');
INSERT INTO account VALUES ('Assets:Cash', 18262, NULL, 'STRICT');
INSERT INTO account VALUES ('Income:Gains', 18262, NULL, 'STRICT');
INSERT INTO account VALUES ('Equity:Start', 18262, NULL, 'STRICT');
CREATE TABLE allowed (account TEXT NOT NULL, place INTEGER NOT NULL, commodity TEXT NOT NULL, UNIQUE (account, place)) STRICT;
CREATE TABLE commodity (name TEXT NOT NULL, day INTEGER NOT NULL, UNIQUE (name)) STRICT;
CREATE TABLE price (base TEXT NOT NULL, quote TEXT NOT NULL, day INTEGER NOT NULL, rate INTEGER NOT NULL, UNIQUE (base, quote, day)) STRICT;
CREATE TABLE entry (number INTEGER NOT NULL, source TEXT NOT NULL, name TEXT NOT NULL, body TEXT NOT NULL, UNIQUE (number), UNIQUE (source, name)) STRICT;
INSERT INTO entry VALUES (1, 'post:a', '1', '2020-01-01 open Assets:Broker "FIFO"
');
INSERT INTO entry VALUES (2, 'post:a', '2', '2020-01-01 open Assets:Cash
');
INSERT INTO entry VALUES (3, 'post:a', '3', '2020-01-01 open Income:Gains
');
INSERT INTO entry VALUES (4, 'post:a', '4', '2020-01-01 open Equity:Start
');
INSERT INTO entry VALUES (5, 'post:a', '5', '2020-01-02 *
  Assets:Broker 5 HOOL {100 USD, "b"}
  Equity:Start
');
INSERT INTO entry VALUES (6, 'post:a', '6', '2020-01-02 *
  Assets:Broker 5 HOOL {100 USD, "a"}
  Equity:Start
');
INSERT INTO entry VALUES (7, 'post:a', '7', '2020-01-03 *
  Assets:Broker -1 HOOL {}
  Assets:Cash
');
CREATE TABLE leg (entry INTEGER NOT NULL, posting INTEGER NOT NULL, place INTEGER NOT NULL, account TEXT NOT NULL, commodity TEXT NOT NULL, units INTEGER NOT NULL, cost_number INTEGER, cost_currency TEXT, cost_day INTEGER, cost_label TEXT, UNIQUE (entry, posting, place)) STRICT;
INSERT INTO leg VALUES (5, 1, 0, 'Assets:Broker', 'HOOL', 500000000, 10000000000, 'USD', 18263, 'b');
INSERT INTO leg VALUES (5, 2, 0, 'Equity:Start', 'USD', -50000000000, NULL, NULL, NULL, NULL);
INSERT INTO leg VALUES (6, 1, 0, 'Assets:Broker', 'HOOL', 500000000, 10000000000, 'USD', 18263, 'a');
INSERT INTO leg VALUES (6, 2, 0, 'Equity:Start', 'USD', -50000000000, NULL, NULL, NULL, NULL);
INSERT INTO leg VALUES (7, 1, 0, 'Assets:Broker', 'HOOL', -100000000, 10000000000, 'USD', 18263, 'a');
INSERT INTO leg VALUES (7, 2, 0, 'Assets:Cash', 'USD', 10000000000, NULL, NULL, NULL, NULL);
CREATE TABLE sale (entry INTEGER NOT NULL, posting INTEGER NOT NULL, day INTEGER NOT NULL, account TEXT NOT NULL, commodity TEXT NOT NULL, units INTEGER NOT NULL, kind INTEGER NOT NULL, amount INTEGER, currency TEXT, UNIQUE (entry, posting)) STRICT;
INSERT INTO sale VALUES (7, 1, 18264, 'Assets:Broker', 'HOOL', -100000000, 0, NULL, NULL);
CREATE TABLE lot (account TEXT NOT NULL, commodity TEXT NOT NULL, cost_day INTEGER NOT NULL, cost_currency TEXT NOT NULL, cost_number INTEGER NOT NULL, cost_label TEXT NOT NULL, units INTEGER NOT NULL, UNIQUE (account, commodity, cost_day, cost_currency, cost_number, cost_label)) STRICT;
INSERT INTO lot VALUES ('Assets:Broker', 'HOOL', 18263, 'USD', 10000000000, 'b', 500000000);
INSERT INTO lot VALUES ('Assets:Broker', 'HOOL', 18263, 'USD', 10000000000, 'a', 400000000);
CREATE TABLE plain (account TEXT NOT NULL, commodity TEXT NOT NULL, units INTEGER NOT NULL, UNIQUE (account, commodity)) STRICT;
INSERT INTO plain VALUES ('Equity:Start', 'USD', -100000000000);
INSERT INTO plain VALUES ('Assets:Cash', 'USD', 10000000000);
CREATE TABLE head (account TEXT NOT NULL, commodity TEXT NOT NULL, day INTEGER NOT NULL, UNIQUE (account, commodity)) STRICT;
INSERT INTO head VALUES ('Assets:Broker', 'HOOL', 18264);
COMMIT;
