// A reporter for node's test runner that strips what tests print, for logs that other tools read.
//
//     node --test --test-reporter=./plain_reports.mjs
import { Codec } from 'csicodec';

const codec = await Codec.load();

/** @param {AsyncIterable<{ type: string, data: { name?: string, message?: string, nesting?: number } }>} events */
export default async function* plainReports(events) {
    for await (const { type, data } of events) {
        const indent = '    '.repeat(data.nesting ?? 0);
        if (type === 'test:pass') yield `${indent}ok ${codec.strip(data.name ?? '')}\n`;
        if (type === 'test:fail') yield `${indent}not ok ${codec.strip(data.name ?? '')}\n`;
        if (type === 'test:stdout' || type === 'test:stderr') yield codec.strip(data.message ?? '');
    }
}
