/** Throws where it doesn't hold. */
export function expect(holds, what) {
  if (!holds) {
    throw new Error(`not so: ${what}`);
  }
}
