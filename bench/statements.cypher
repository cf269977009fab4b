CREATE (ada:Person {name: 'Ada Lovelace', born: 1815, city: 'London'})
CREATE (grace:Person:Admin {name: 'Grace Hopper', born: 1906, city: 'New York'})
CREATE (:City {name: 'Zürich', country: 'Switzerland', population: 421878})
CREATE (p:Person {name: 'Linus'})-[:WORKS_AT {since: 2003}]->(c:Company {name: 'Open Source Labs'})
CREATE (a:Account {number: 4711, balance: 250})-[:TRANSFERRED {amount: 1200, day: 20231105}]->(b:Account {number: 4712, balance: 0})
MATCH (n) RETURN n
MATCH (n:Person) RETURN n.name AS name
MATCH (n:Person) WHERE n.born < 1900 RETURN n.name AS name, n.born AS born ORDER BY born
MATCH (n:Person {city: 'London'}) RETURN count(*) AS people
MATCH (p:Person)-[:KNOWS]->(q:Person) RETURN p.name AS person, q.name AS friend
MATCH (p:Person)-[k:KNOWS]->(q:Person) WHERE k.since >= 2010 AND p.city = q.city RETURN p.name, q.name, k.since
MATCH (a:Person {name: 'Ada Lovelace'})-[:KNOWS*1..3]->(b:Person) RETURN DISTINCT b.name AS name
MATCH (a:Person)-[:KNOWS]-(b:Person), (b)-[:WORKS_AT]->(c:Company) RETURN a.name AS person, c.name AS company
MATCH (p:Person) OPTIONAL MATCH (p)-[:OWNS]->(a:Account) RETURN p.name AS owner, a.number AS account
MATCH (p:Person)-[:WORKS_AT]->(c:Company) RETURN c.name AS company, count(p) AS employees ORDER BY employees DESC LIMIT 10
MATCH (p:Person) WHERE p.name STARTS WITH 'A' OR p.name ENDS WITH 'e' RETURN p.name AS name
MATCH (p:Person) WHERE p.email IS NULL RETURN p.name AS name
MATCH (p:Person) WHERE p.email IS NOT NULL AND NOT p:Admin RETURN p.name AS name, p.email AS email
MATCH (p:Person) WHERE p.city IN ['London', 'Paris', 'Berlin'] RETURN p.city AS city, count(*) AS people
MATCH (p:Person) WITH p.city AS city, count(*) AS people WHERE people > 5 RETURN city, people ORDER BY people DESC, city ASC
MATCH (a:Account)-[t:TRANSFERRED]->(b:Account) WHERE t.amount > 10000 RETURN a.number AS sender, b.number AS receiver, t.amount AS amount
MATCH (a:Account)-[:TRANSFERRED]->(b:Account)-[:TRANSFERRED]->(c:Account)-[:TRANSFERRED]->(a) RETURN a.number, b.number, c.number
MATCH (a:Account)-[t:TRANSFERRED]->(:Account) WITH a, sum(t.amount) AS total WHERE total > 50000 RETURN a.number AS account, total
MATCH (a:Account {number: 4711}) SET a.balance = a.balance - 100, a.frozen = false
MATCH (a:Account {number: 4711}) SET a:Suspicious REMOVE a.frozen
MATCH (a:Account {number: 4711})-[t:TRANSFERRED]->(b) DELETE t
MATCH (p:Person {name: 'Linus'}) DETACH DELETE p
MATCH (u:User {login: 'mallory'})-[m:MEMBER_OF]->(g:Group {name: 'admins'}) DELETE m
MATCH (u:User)-[:MEMBER_OF*1..5]->(g:Group)-[:MAY]->(r:Resource) RETURN u.login AS user, r.path AS resource
MATCH (u:User)-[:MEMBER_OF]->(:Group)-[:MAY {action: 'write'}]->(r:Resource {path: '/etc/passwd'}) RETURN u.login AS user
MATCH (s:Service)-[:DEPENDS_ON*]->(t:Service {name: "billing"}) RETURN s.name AS service
MATCH (s:Service) WHERE s.version <> '2.4.1' RETURN s.name AS service, s.version AS version ORDER BY service
MATCH (s:Service {name: 'billing'}) SET s.version = '2.5.0', s.deployed = 20240117 RETURN s.name, s.version
MATCH (h:Host)<-[:RUNS_ON]-(s:Service) RETURN h.name AS host, collect(s.name) AS services
MATCH (h:Host) OPTIONAL MATCH (h)<-[r:RUNS_ON]-(:Service) WITH h, count(r) AS load RETURN h.name AS host, load SKIP 10 LIMIT 20
UNWIND [1, 2, 3, 5, 8, 13] AS number RETURN number, number * number AS square
UNWIND ['red', 'green', 'blue'] AS color CREATE (:Color {name: color})
RETURN 1 + 2 * 3 AS seven, (1 + 2) * 3 AS nine, 7 % 4 AS three, -5 AS minus
RETURN 'it\'s' AS text, "a \"quoted\" word" AS quoted, 'tab\tand newline\n' AS escaped
RETURN null = null AS unknown, true XOR false AS either, NOT false AS truth
MATCH (n:Person) RETURN CASE WHEN n.born < 1900 THEN 'old' WHEN n.born < 2000 THEN 'middle' ELSE 'young' END AS age, n.name AS name
MATCH (n:Product) WHERE 10 <= n.price < 100 RETURN n.title AS title, n.price AS price ORDER BY n.price
MATCH (c:Customer)-[:ORDERED]->(o:Order)-[:CONTAINS]->(p:Product) RETURN c.name AS customer, sum(p.price) AS total
MATCH (c:Customer)-[:ORDERED]->(:Order)-[:`CONTAINS`]->(p:Product {title: 'Coffee Grinder'}) RETURN c.`full name` AS customer
MATCH (c:Customer)-[:BOUGHT]->(p:Product)<-[:BOUGHT]-(d:Customer)-[:BOUGHT]->(q:Product) RETURN c.name, q.title, count(*) AS score
MATCH (m:Movie)<-[a:ACTED_IN]-(p:Person) WHERE m.released > 1999 RETURN m.title AS movie, collect(p.name) AS actors, size(a.roles) AS roles
MATCH (m:Movie {title: 'The Matrix'})<-[:DIRECTED]-(d:Person)-[:DIRECTED]->(other:Movie) RETURN other.title AS title
MATCH (p:Person)-[:ACTED_IN|DIRECTED]->(m:Movie) RETURN p.name AS person, m.title AS movie, m.released AS year
MATCH (p:Person) RETURN coalesce(p.nickname, p.name, 'unknown') AS name, toString(p.born) AS born
MATCH (p:Person) RETURN p.name + ' (' + toString(p.born) + ')' AS label, labels(p) AS kinds, id(p) AS number
MATCH (p:Person)-[r]->(x) RETURN p.name AS person, type(r) AS relationship, min(r.since) AS first, max(r.since) AS last
MATCH (s:Sensor {id: 17})-[:MEASURED]->(m:Measurement) WHERE m.time >= 1700000000 AND m.time < 1700086400 RETURN m.time, m.value
MATCH (s:Sensor) WHERE exists(s.location) RETURN s.id AS sensor, s.location AS location, abs(s.offset) AS offset
match (n:Person) where n.name contains 'Love' return n.name as name, n.city as city limit 3
match (a)-[:FOLLOWS]->(b) where not b.private return a.handle as follower, b.handle as followed
MATCH (post:Post)<-[:LIKES]-(u:User) WITH post, count(u) AS likes ORDER BY likes DESC LIMIT 5 MATCH (post)-[:WRITTEN_BY]->(author:User) RETURN author.handle, post.text, likes
MATCH (u:User {handle: 'ada'}), (p:Post {number: 12345}) CREATE (u)-[:LIKES {at: 1700000123}]->(p)
MATCH (t:Task) WHERE t.done = false AND t.due < 20240301 RETURN t.title AS task, t.due AS due ORDER BY due, task // what is late
MATCH (a:Station)-[r:RAIL]->(b:Station) /* both ways are stored */ WHERE a.name = 'Bern' RETURN b.name AS next, r.minutes AS minutes
MATCH (n:Temporary) WHERE n.created < 1690000000 DETACH DELETE n;
