--  A pool that is wrong. Its Deallocate keeps the block of an object that was freed, so that the next Allocate need not ask the library; but
--  Allocate forgets to note that it has handed the block out, and gives it once more. The object that is there would be overwritten: an
--  address that Allocate gives must name a block in which no object is (RM 13.11), and the run stops as BAD_ADDRESS, before anything is
--  written. caching_pool.adb is the same program, corrected.
with Ada.Text_IO;             use Ada.Text_IO;
with Ada.Unchecked_Deallocation;
with System;
with System.Storage_Elements; use System.Storage_Elements;
with Block_Pools;             use Block_Pools;

procedure Caching_Pool_Wrong is
   type Cache_Pool is new Block_Pool with record
      Spare     : System.Address;
      Has_Spare : Boolean := False;
   end record;

   overriding procedure Allocate
     (Pool : in out Cache_Pool; Storage_Address : out System.Address; Size, Alignment : in Storage_Count);
   overriding procedure Deallocate
     (Pool : in out Cache_Pool; Storage_Address : in System.Address; Size, Alignment : in Storage_Count);

   type Point is record
      X, Y : Integer;
   end record;

   procedure Allocate
     (Pool : in out Cache_Pool; Storage_Address : out System.Address; Size, Alignment : in Storage_Count) is
   begin
      if Pool.Has_Spare then
         Put_Line ("   from the cache");
         Storage_Address := Pool.Spare;
      else
         Put_Line ("   from the library");
         Allocate (Block_Pool (Pool), Storage_Address, Size, Alignment);
      end if;
   end Allocate;

   procedure Deallocate
     (Pool : in out Cache_Pool; Storage_Address : in System.Address; Size, Alignment : in Storage_Count) is
   begin
      Put_Line ("   into the cache");
      Pool.Spare := Storage_Address;
      Pool.Has_Spare := True;
   end Deallocate;
begin
   declare
      --  A point takes 16 storage units.
      Pool : Cache_Pool (Block_Size => 16, Block_Count => 2);

      type Link is access Point with Storage_Pool => Pool;

      procedure Free is new Ada.Unchecked_Deallocation (Point, Link);

      A, B : Link;
   begin
      A := new Point;
      Free (A);
      A := new Point;
      A.X := 1;
      Put_Line ("the first point");
      B := new Point;
      B.X := 2;
      Put_Line ("the second point; X of the first is" & Integer'Image (A.X));
   end;
end Caching_Pool_Wrong;
