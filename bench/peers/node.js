// Lays out a JSON text with four spaces a level.
const fs = require('fs');
const text = Buffer.from(JSON.stringify(JSON.parse(fs.readFileSync(process.argv[2], 'utf8')), null, 4) + '\n');
for (let sent = 0; sent < text.length;) {
  sent += fs.writeSync(1, text, sent);
}
