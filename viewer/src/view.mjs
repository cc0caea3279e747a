// The visible part of a drawing: a box in the drawing's units, round a middle, enlarged by `scale`.

const MOST = 20;

export class View {
  /**
   * @param {number} width
   * @param {number} height
   */
  constructor(width, height) {
    this.fullWidth = width;
    this.fullHeight = height;
    this.fit();
  }

  fit() {
    this.scale = 1;
    this.x = this.fullWidth / 2;
    this.y = this.fullHeight / 2;
  }

  /**
   * Zooms; the place x, y, by default the middle, stays fixed on the screen.
   * @param {number} factor
   */
  by(factor, x = this.x, y = this.y) {
    const scale = Math.min(MOST, Math.max(1, this.scale * factor));
    const share = this.scale / scale;
    this.scale = scale;
    this.moveTo(x + (this.x - x) * share, y + (this.y - y) * share);
  }

  /**
   * @param {number} x
   * @param {number} y
   */
  moveTo(x, y) {
    /**
     * @param {number} at
     * @param {number} size
     * @param {number} whole
     */
    const within = (at, size, whole) => Math.min(whole - size / 2, Math.max(size / 2, at));
    this.x = within(x, this.width, this.fullWidth);
    this.y = within(y, this.height, this.fullHeight);
  }

  /**
   * @param {number} dx
   * @param {number} dy
   */
  drag(dx, dy) {
    this.moveTo(this.x - dx, this.y - dy);
  }

  get width() {
    return this.fullWidth / this.scale;
  }

  get height() {
    return this.fullHeight / this.scale;
  }

  get box() {
    return [this.x - this.width / 2, this.y - this.height / 2, this.width, this.height];
  }

  /**
   * @param {number} x
   * @param {number} y
   * @param {number} border
   */
  sees(x, y, border) {
    const [left, top, width, height] = this.box;
    return x >= left + border && x <= left + width - border && y >= top + border && y <= top + height - border;
  }
}
