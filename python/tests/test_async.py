"""A mesh in a loop of asyncio."""
import asyncio
import unittest

import tazbrev

HEADER = 'disk md0 512\nram md1 512 64\nactor a\n'


class SleepingDisk(tazbrev.MemoryDisk):
    """Its methods are coroutines."""

    async def read(self, first, count):
        await asyncio.sleep(0.001)
        return super().read(first, count)

    async def write(self, first, data):
        await asyncio.sleep(0.001)
        if first == 60:
            raise tazbrev.DiskError('sector 60 is broken')
        super().write(first, data)


class Async(unittest.IsolatedAsyncioTestCase):
    async def test_requests_wait_beside_each_other(self):
        async with tazbrev.AsyncMesh(HEADER, [SleepingDisk(64)]) as mesh:
            async with await mesh.open('a', 'h', 'md0', r=1, w=1) as slow:
                fast = await mesh.open('a', 'g', 'md1', r=1, w=1)
                await asyncio.gather(*(slow.write(512 * it, bytes([it]) * 512) for it in range(1, 9)),
                                     fast.write(0, b'f' * 512))
                read = await asyncio.gather(*(slow.read(512 * it, 512) for it in range(1, 9)), fast.read(0, 512))
                self.assertEqual([it[0] for it in read], [*range(1, 9), ord('f')])
                with self.assertRaises(tazbrev.TransferError):
                    await slow.write(60 * 512, bytes(512))
                await slow.delete(512, 512)
                await slow.flush()

    async def test_a_fast_disk_does_not_wait_for_a_slow_one(self):
        async with tazbrev.AsyncMesh(HEADER, [SleepingDisk(64)]) as mesh:
            slow, fast = await mesh.open('a', 'h', 'md0', w=1), await mesh.open('a', 'g', 'md1', r=1)
            waits = asyncio.ensure_future(slow.write(512, bytes(512)))
            await fast.read(0, 512)
            self.assertFalse(waits.done())
            await waits

    async def test_commands(self):
        async with tazbrev.AsyncMesh(HEADER, {'md0': SleepingDisk(64)}) as mesh:
            self.assertIsInstance(mesh.disks['md0'], SleepingDisk)
            await mesh.command('a nop md1 0 32768 0')
            self.assertIn('NOP', mesh.text())
            handle = await mesh.open('a', 'h', 'md0', r=1, w=1)
            write = asyncio.ensure_future(handle.write(512, b'x' * 512))
            await asyncio.sleep(0)
            await mesh.command('a sync')
            self.assertEqual(await mesh.command('a read h 512 512'), b'x' * 512)
            await write
            await mesh.pull('md1')
            await handle.close()
            self.assertEqual([it.name for it in mesh.list() if it.kind == 'DISK'], ['md0'])
            await mesh.insert('md1')


if __name__ == '__main__':
    unittest.main()
