SELECT id, name FROM c.cust WHERE name = 'Bob';
