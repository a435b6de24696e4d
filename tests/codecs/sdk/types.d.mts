type Type = { parse(data: Uint8Array): unknown; serialize(value: unknown): { toBytes(): Uint8Array } };
export declare const types: Record<string, Type>;
