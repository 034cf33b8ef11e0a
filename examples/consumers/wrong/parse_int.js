#!/usr/bin/env node
// It compares timestamps by parseInt. Above 2^53 two of them, a nanosecond apart, are the same number, and the later event is lost.
//
//     try-consumer -- node parse_int.js
//     without faults, delivery 4: expected applied, your consumer took it for a duplicate
const fs = require('fs');
const readline = require('readline');

const SUMS = ['debits_pending', 'debits_posted', 'credits_pending', 'credits_posted'];
let state = { applied: 0, last: '0', ended: false };
if (fs.existsSync('state')) state = JSON.parse(fs.readFileSync('state', 'utf8'));

readline.createInterface({ input: process.stdin }).on('line', (line) => {
    const { delivery, end, body } = JSON.parse(line);
    let [result, accounts] = ['duplicate', []];
    if (end && !state.ended) {
        state.ended = true;
        result = 'end';
    } else if (body && parseInt(body.timestamp, 10) > parseInt(state.last, 10)) {
        result = 'applied';
        accounts = [body.debit_account, body.credit_account].map((account) =>
            Object.fromEntries(['id', ...SUMS].map((name) => [name, account[name]])));
        state.last = body.timestamp;
        state.applied += 1;
    }
    fs.writeFileSync('state.new', JSON.stringify(state));
    fs.renameSync('state.new', 'state');
    console.log(JSON.stringify({ delivery, result, applied: state.applied, last: state.last, accounts }));
});
