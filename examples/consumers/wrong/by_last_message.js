#!/usr/bin/env node
// It compares a message only with the one before. A queue that rewinds by two brings older ones.
//
//     try-consumer -- node by_last_message.js
//     seed 1, delivery 5: expected duplicate, your consumer applied it
const fs = require('fs');
const readline = require('readline');

const SUMS = ['debits_pending', 'debits_posted', 'credits_pending', 'credits_posted'];
let state = { applied: 0, last: '0', ended: false };
if (fs.existsSync('state')) state = JSON.parse(fs.readFileSync('state', 'utf8'));

readline.createInterface({ input: process.stdin }).on('line', (line) => {
    const { delivery, end, body } = JSON.parse(line);
    let [result, accounts] = ['duplicate', []];
    if (end && !state.ended) {
        state.ended = true;
        result = 'end';
    } else if (body && body.timestamp !== state.last) {
        result = 'applied';
        accounts = [body.debit_account, body.credit_account].map((account) =>
            Object.fromEntries(['id', ...SUMS].map((name) => [name, account[name]])));
        state.last = body.timestamp;
        state.applied += 1;
    }
    fs.writeFileSync('state.new', JSON.stringify(state));
    fs.renameSync('state.new', 'state');
    console.log(JSON.stringify({ delivery, result, applied: state.applied, last: state.last, accounts }));
});
