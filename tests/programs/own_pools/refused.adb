--  An Allocate raises an exception of the program: the allocator raises it, and takes no number (RM 13.11).
with Ada.Finalization;        use Ada.Finalization;
with Ada.Text_IO;             use Ada.Text_IO;
with System;                  use System;
with System.Storage_Elements; use System.Storage_Elements;
with Block_Pools;             use Block_Pools;

procedure Refused is
   type T is new Controlled with record
      N : Integer := 0;
   end record;

   overriding procedure Finalize (X : in out T);

   type Pool is new Block_Pool with record
      Shut : Boolean;
   end record;

   overriding procedure Allocate (X : in out Pool; A : out System.Address; S, L : in Storage_Count);

   Denied : exception;

   procedure Finalize (X : in out T) is
   begin
      Put_Line ("F" & Integer'Image (X.N));
   end Finalize;

   procedure Allocate (X : in out Pool; A : out System.Address; S, L : in Storage_Count) is
   begin
      if X.Shut then
         raise Denied;
      end if;
      Allocate (Block_Pool (X), A, S, L);
   end Allocate;
begin
   declare
      P : Pool (16, 1);

      type Ref is access T with Storage_Pool => P;

      A : Ref;
   begin
      P.Shut := True;
      begin
         A := new T;
      exception
         when Denied =>
            Put_Line ("denied " & Boolean'Image (A = null));
      end;
      P.Shut := False;
      A := new T;
   end;
end Refused;
