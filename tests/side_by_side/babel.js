// Reads samples as JSON from standard input, prints what Babel makes of each: its code, or why it refuses.
const babel = require('@babel/core');
const plugins = {
  jsx: require('@babel/plugin-transform-react-jsx'),
  development: require('@babel/plugin-transform-react-jsx-development'),
  self: require('@babel/plugin-transform-react-jsx-self'),
  source: require('@babel/plugin-transform-react-jsx-source'),
};
const samples = JSON.parse(require('fs').readFileSync(0, 'utf8'));
const answers = samples.map(({ source, module, names, options }) => {
  try {
    const chosen = names.map((name) => [plugins[name], name === 'jsx' || name === 'development' ? options : {}]);
    return babel.transformSync(source, { configFile: false, babelrc: false, sourceType: module ? 'module' : 'script',
      filename: '/sheet.jsx', plugins: chosen }).code;
  } catch (error) {
    return { refused: error.message.split('\n')[0].replace('/sheet.jsx: ', '') };
  }
});
console.log(JSON.stringify(answers));
