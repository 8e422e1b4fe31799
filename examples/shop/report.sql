-- what each region bought
SELECT region, COUNT(qty) AS lines, SUM(cents) AS cents FROM report.sold GROUP BY region ORDER BY region;

-- the customers without an order
SELECT name FROM report.sold WHERE qty IS NULL;

-- the best ones
SELECT name, cents FROM report.big ORDER BY cents DESC LIMIT 2;

-- items that no order names, and orders of nobody
SELECT 'item ' || item AS what FROM sales.price WHERE item NOT IN ('pen', 'ink', 'cap')
UNION ALL
SELECT CASE WHEN cust IS NULL THEN 'an order of nobody' ELSE item END FROM sales.orders WHERE cust IS NULL;

-- a mistake: its place is counted from the first byte of this file
SELECT nme FROM crm.cust;
