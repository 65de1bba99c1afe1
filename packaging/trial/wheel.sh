# In the bare root: the wheel in a fresh virtual environment.
set -eu
python3 -m venv /tmp/venv
/tmp/venv/bin/pip install -q --no-index --disable-pip-version-check /try/*.whl
cd /tmp
/tmp/venv/bin/python /try/tests/examples.py 7 7 </try/tests/worked.steps | cmp - /try/tests/worked.expected
geocom serve 4001 >/dev/null &
sleep 1
[ "$(/tmp/venv/bin/python /try/tests/first_steps.py /usr/share/doc/geocom/README.md)" = '2.25 1.625 110.0625' ]
wait
/tmp/venv/bin/python /try/tests/examples_run.py >/dev/null
/tmp/venv/bin/python -c '
import geocom, importlib.metadata, importlib.resources
assert importlib.resources.files(geocom).joinpath("py.typed").is_file()
assert geocom.__version__ == importlib.metadata.version("geocom")
print(geocom.__version__)'
/tmp/venv/bin/pip uninstall -q -y geocom
[ -z "$(find /tmp/venv -path '*/site-packages/geocom*')" ]
rm -r /tmp/venv
