from setuptools import Extension, setup

extension = Extension(
    "chacha20._chacha20",
    ["src/_chacha20.c"],
    include_dirs=["."],
    extra_objects=["libchacha20.a"],
    extra_compile_args=["-Wall", "-Wextra", "-fvisibility=hidden"],
    extra_link_args=["-Wl,--exclude-libs,ALL", "-Wl,--as-needed", "-Wl,-z,relro,-z,now,-z,noexecstack"],
    py_limited_api=True,
)
setup(ext_modules=[extension], options={"bdist_wheel": {"py_limited_api": "cp311"}})
