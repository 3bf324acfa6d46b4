--  A Deallocate raises: the access value is null, the object is gone, and its block stays out (RM 13.11.2).
with Ada.Finalization;        use Ada.Finalization;
with Ada.Text_IO;             use Ada.Text_IO;
with Ada.Unchecked_Deallocation;
with System;                  use System;
with System.Storage_Elements; use System.Storage_Elements;
with Block_Pools;             use Block_Pools;

procedure Unreturned is
   type T is new Controlled with record
      N : Integer := 0;
   end record;

   overriding procedure Finalize (X : in out T);

   type Pool is new Block_Pool with null record;

   overriding procedure Deallocate (X : in out Pool; A : in System.Address; S, L : in Storage_Count);

   Denied : exception;

   procedure Finalize (X : in out T) is
   begin
      Put_Line ("F" & Integer'Image (X.N));
   end Finalize;

   procedure Deallocate (X : in out Pool; A : in System.Address; S, L : in Storage_Count) is
   begin
      Put_Line ("D");
      raise Denied;
   end Deallocate;
begin
   declare
      P : Pool (16, 1);

      type Ref is access T with Storage_Pool => P;

      procedure Free is new Ada.Unchecked_Deallocation (T, Ref);

      A : Ref;
   begin
      A := new T;
      begin
         Free (A);
      exception
         when Denied =>
            Put_Line ("denied " & Boolean'Image (A = null));
      end;
      A := new T;
   exception
      when Storage_Error =>
         Put_Line ("SE");
   end;
end Unreturned;
