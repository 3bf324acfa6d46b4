--  A kept block has a new object: an access value to the one that was there before designates what is gone
--  (RM 13.11.2).
with Ada.Finalization;        use Ada.Finalization;
with Ada.Text_IO;             use Ada.Text_IO;
with Ada.Unchecked_Deallocation;
with System;
with System.Storage_Elements; use System.Storage_Elements;
with Block_Pools;             use Block_Pools;

procedure Stale is
   type T is new Controlled with record
      N : Integer := 0;
   end record;

   overriding procedure Adjust (X : in out T);
   overriding procedure Finalize (X : in out T);

   procedure Adjust (X : in out T) is
   begin
      Put_Line ("A" & Integer'Image (X.N));
   end Adjust;

   procedure Finalize (X : in out T) is
   begin
      Put_Line ("F" & Integer'Image (X.N));
   end Finalize;
begin
   declare
      type Keep is new Block_Pool with record
         Spare : System.Address;
         Has   : Boolean;
      end record;

      overriding procedure Allocate
        (Pool : in out Keep; Storage_Address : out System.Address; Size, Alignment : in Storage_Count);
      overriding procedure Deallocate
        (Pool : in out Keep; Storage_Address : in System.Address; Size, Alignment : in Storage_Count);

      procedure Allocate
        (Pool : in out Keep; Storage_Address : out System.Address; Size, Alignment : in Storage_Count) is
      begin
         if Pool.Has then
            Storage_Address := Pool.Spare;
            Pool.Has := False;
         else
            Allocate (Block_Pool (Pool), Storage_Address, Size, Alignment);
         end if;
      end Allocate;

      procedure Deallocate
        (Pool : in out Keep; Storage_Address : in System.Address; Size, Alignment : in Storage_Count) is
      begin
         Pool.Spare := Storage_Address;
         Pool.Has := True;
      end Deallocate;

      P : Keep (16, 1);
   begin
      declare
         type Ref is access T;

         for Ref'Storage_Pool use P;

         procedure Free is new Ada.Unchecked_Deallocation (T, Ref);

         A, B : Ref;
      begin
         A := new T;
         B := A;
         Free (A);
         A := new T;
         Put_Line ("new");
         Put_Line (Integer'Image (B.N));
      end;
   end;
end Stale;
