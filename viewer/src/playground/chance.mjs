// Numbers drawn from a seed (Park and Miller, 1988), so that a network has one picture everywhere.

const MODULUS = 2147483647;

/**
 * Draws numbers from 0 up to but not including 1.
 * @param {number} seed
 */
export function chanceOf(seed) {
  let state = (Math.abs(Math.round(seed)) % (MODULUS - 1)) + 1;
  const next = () => (state = (state * 48271) % MODULUS) / MODULUS;
  // the first draws of near seeds are near
  next();
  next();
  return next;
}
